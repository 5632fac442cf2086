#!/bin/sh
# The Rust crate where the archive isn't there: `cargo check`, `doc` and `clippy` work and warn; linking fails with a sentence
# that says what to run.
#
#     tests/bare.sh
set -u
cd "$(dirname "$0")/../rust" || exit 2
ROUTES_LIB_DIR=/nonexistent CARGO_TARGET_DIR=../target/bare
export ROUTES_LIB_DIR CARGO_TARGET_DIR
said=$CARGO_TARGET_DIR.log
mkdir -p ../target || exit 2
wrong=0

tell() { # WHAT
    echo "WRONG: $1"
    cat "$said"
    wrong=1
}

works() { # COMMAND...
    cargo "$@" --offline >"$said" 2>&1 || tell "cargo $1 fails without the archive"
}

works check --all-targets
grep -q "warning: .*libroutes.a isn't there: .make archive. proves and writes it" "$said" || tell "no warning says what is missing"
works doc --no-deps
if cargo clippy --version >/dev/null 2>&1; then
    works clippy
fi
if cargo build --offline --example pier >"$said" 2>&1; then
    tell "linking goes well without the archive"
fi
grep -q "libroutes.a is not there. Run .make archive. in the folder of the project" "$said" || tell "linking doesn't say what to run"
[ "$wrong" -eq 0 ] && echo "without the archive all but linking works"
exit "$wrong"
