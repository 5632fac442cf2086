#!/bin/sh
# The stored streams: each tests/streams/NAME.txt, turned to bytes, is fed to the program `routes`, which must print
# NAME.out to the byte. What must be printed was worked out by hand from the scope.
#
#     tests/streams.sh CONVERTER PROGRAM
#
# It tells each stream on which the program prints something else, with the lines that differ.
set -u
converter=$1 program=$2
here=$(dirname "$0")/streams
room=$(mktemp -d) || exit 2
trap 'rm -rf "$room"' EXIT
run=0 wrong=0
for text in "$here"/*.txt; do
    due=${text%.txt}.out
    run=$((run + 1))
    if ! "$converter" <"$text" >"$room/stream"; then
        echo "$text is no stream"
    elif ! "$program" <"$room/stream" >"$room/printed"; then
        echo "$text: the program ended with another status than 0"
    elif ! cmp -s "$room/printed" "$due"; then
        echo "$text: printed is not what $due has (- due, + printed)"
        diff -u "$due" "$room/printed" | tail -n +4
    else
        continue
    fi
    wrong=$((wrong + 1))
done
echo "$run stored streams, $wrong wrong"
[ "$run" -gt 0 ] && [ "$wrong" -eq 0 ]
