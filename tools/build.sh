#!/bin/sh
# Proves and builds what programs of other languages and people use: the program `routes`, to target/bin/routes, or the archive,
# to target/lib/libroutes.a. Where neither the text nor the kit has changed since, it does nothing.
#
#     tools/build.sh program
#     tools/build.sh archive
#     tools/build.sh passed     behind `rt ci`: takes the program that it has built of the text as it stands
#
# Nothing is said where that goes well. What rt says goes to target/build.log, and where it fails to standard error.
set -u
cd "$(dirname "$0")/.." || exit 2
case ${1-} in
    program) crate=routes verb=run built=routes to=target/bin/routes ;;
    passed) crate=routes verb='' built=routes to=target/bin/routes ;;
    archive) crate=border verb=lib built=libborder.a to=target/lib/libroutes.a ;;
    *)
        echo "usage: tools/build.sh program, archive or passed" >&2
        exit 2
        ;;
esac

# All that it is made of: the crates' text, the kit and these scripts.
sum=$({ rt version && find crates.txt HANDLES tools/build.sh tools/align.sh crates -path '*/out' -prune -o -type f -print0 | LC_ALL=C sort -z | xargs -0 sha256sum; } | sha256sum)
[ -z "$verb" ] || [ ! -f "$to" ] || [ "$(cat "$to.sum" 2>/dev/null)" != "$sum" ] || exit 0

mkdir -p "$(dirname "$to")" || exit 2
# `rt run` also runs the program, here on the empty stream.
if [ -n "$verb" ] && ! (cd "crates/$crate" && rt "$verb" </dev/null) >target/build.log 2>&1; then
    cat target/build.log >&2
    exit 1
fi
rm -f "$to.sum"
cp "crates/$crate/out/$built" "$to.new" || exit 1
# In the archive each function begins at a cache line, whatever is linked beside it (docs/DECISIONS.md). As it was built it stays
# beside, for `make aligned`.
if [ "$crate" = border ]; then
    cp "$to.new" "$to.built" && tools/align.sh "$to.new" || exit 1
fi
mv "$to.new" "$to" && echo "$sum" >"$to.sum"
