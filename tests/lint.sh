#!/bin/sh
# The Rust code is laid out as rustfmt does it, and clippy has nothing to say. What isn't installed isn't asked, and that is
# said.
#
#     tests/lint.sh
set -u
cd "$(dirname "$0")/.." || exit 2
wrong=0
if cargo fmt --version >/dev/null 2>&1; then
    for folder in rust bench bench/peers/petgraph; do
        (cd "$folder" && cargo fmt --all --check) || wrong=1
    done
else
    echo "rustfmt isn't installed, so the layout isn't looked at"
fi
if cargo clippy --version >/dev/null 2>&1; then
    (cd rust && cargo clippy --offline --quiet --workspace --all-targets -- -D warnings) || wrong=1
    (cd bench && cargo clippy --offline --quiet --all-targets -- -D warnings) || wrong=1
else
    echo "clippy isn't installed, so it isn't asked"
fi
[ "$wrong" -eq 0 ] && echo "the Rust code is laid out, and clippy has nothing to say where it is asked"
exit "$wrong"
