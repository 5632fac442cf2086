#!/bin/sh
# What tools/align.sh makes of the archive that `rt lib` built: alignments became 64, and no other byte differs.
#
#     tests/aligned.sh BUILT ALIGNED
set -u
differ=$(cmp -l "$1" "$2")
[ $? -eq 1 ] || { echo "the archives are the same, or one can't be read"; exit 1; }
# cmp tells a place, and the byte there in each, in octal: alignments below 64, and 64.
others=$(echo "$differ" | awk '!($2 ~ /^(1|2|4|10|20|40)$/ && $3 == "100")' | wc -l)
[ "$(wc -c <"$1")" -eq "$(wc -c <"$2")" ] || { echo "one archive is longer"; exit 1; }
[ "$others" -eq 0 ] || { echo "$others bytes differ that are no alignments"; exit 1; }
echo "$(echo "$differ" | wc -l) alignments, no other byte differs"
