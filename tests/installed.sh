#!/bin/sh
# A copy that `make install` has put under a folder, used from there alone: the C example built with what pkg-config says, the
# converter and the program on a stream, the Rust crate's example linked with that archive; and what the archive asks for.
#
#     tests/installed.sh PREFIX
set -eu
prefix=$(cd "$1" && pwd)
cd "$(dirname "$0")/.."
mkdir -p target/tests

PKG_CONFIG_PATH=$prefix/lib/pkgconfig
export PKG_CONFIG_PATH
if command -v pkg-config >/dev/null; then
    flags=$(pkg-config --cflags --libs routes)
else
    echo "pkg-config isn't installed: its file is read by hand"
    flags=$(sed -n 's/^Libs: //p; s/^Cflags: //p' "$PKG_CONFIG_PATH/routes.pc" | sed "s|\${libdir}|$prefix/lib|; s|\${includedir}|$prefix/include|")
fi
# shellcheck disable=SC2086 # several words
cc -std=c11 -Wall -Wextra -Wpedantic -o target/tests/pier-installed tests/c/pier.c $flags
target/tests/pier-installed >target/tests/pier-installed.out
tail -1 target/tests/pier-installed.out

asked=$(nm -u "$prefix/lib/libroutes.a" | awk '$1 == "U" { print $2 }' | sort | tr '\n' ' ')
[ "$asked" = "memcpy memset " ] || { echo "the archive asks for: $asked"; exit 1; }
offered=$(nm -g --defined-only "$prefix/lib/libroutes.a" | awk '$2 == "T" { print $3 }' | sort)
declared=$(sed -n 's/^uint16_t \(routes_[a-z_]*\)($/\1/p' "$prefix/include/routes.h" | sort)
[ "$offered" = "$declared" ] || { echo "the archive has $offered, the header $declared"; exit 1; }

printed=$(printf 'network 2 root 0\nlink 0 1 5 both 5\nask 1\n' | "$prefix/bin/records" | "$prefix/bin/routes")
[ "$printed" = "N 1 5 0 0" ] || { echo "the installed program prints: $printed"; exit 1; }

(cd rust && ROUTES_LIB_DIR=$prefix/lib CARGO_TARGET_DIR=../target/tests/rust cargo run --offline --quiet --example pier) >target/tests/rust-installed.out
tail -1 target/tests/rust-installed.out
echo "the installed copy works"
