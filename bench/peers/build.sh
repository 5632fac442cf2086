#!/bin/sh
# Builds a peer for each library that is there, into target/bench/peers. Where none is there it builds nothing, and the
# table has no such rows. `make bench-peers` installs them.
set -eu
cd "$(dirname "$0")"
out=../../target/bench/peers
rm -rf "$out"
mkdir -p "$out"

in_cpp() { # NAME HEADER
    if [ -e "/usr/include/$2" ] && command -v g++ >/dev/null; then
        g++ -O3 -DNDEBUG -std=c++14 -w -o "$out/$1" "$1.cpp"
    fi
}

in_cpp boost boost/graph/dijkstra_shortest_paths.hpp
in_cpp lemon lemon/dijkstra.h
if ls -d /usr/share/cargo/registry/petgraph-0.6.* >/dev/null 2>&1; then
    # In a copy: the versions that it locks are this machine's.
    rm -rf ../../target/bench/petgraph
    cp -r petgraph ../../target/bench/petgraph
    (cd ../../target/bench/petgraph && cargo build --offline --quiet --release)
    cp ../../target/rust/release/petgraph "$out/petgraph"
fi
