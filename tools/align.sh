#!/bin/sh
# Lets each function of an archive begin at a cache line: in the headers of its object's sections the alignment of code becomes 64.
# No other byte is written and nothing moves in the file; where a linker puts a function is all that this says. What isn't an
# archive with a 64-bit ELF object stays as it is.
#
#     tools/align.sh ARCHIVE
set -u
archive=$1

# Where these alignments stand, each a number below 64 in one byte. A header has a section's flags 8 bytes from its begin (the flag of
# code is 4) and its alignment 48 bytes from there.
places=$(od -An -v -tu1 "$archive" | awk '
    function number(at, bytes,   n) {
        for (n = 0; bytes > 0; bytes--) n = n * 256 + byte[at + bytes - 1]
        return n
    }
    { for (i = 1; i <= NF; i++) byte[size++] = $i }
    END {
        for (elf = 0; elf < size; elf++)
            if (byte[elf] == 127 && byte[elf + 1] == 69 && byte[elf + 2] == 76 && byte[elf + 3] == 70 && byte[elf + 4] == 2) break
        if (elf == size) exit
        headers = elf + number(elf + 40, 8)
        long = number(elf + 58, 2)
        many = number(elf + 60, 2)
        for (header = headers; header < headers + many * long; header += long)
            if (int(number(header + 8, 8) / 4) % 2 == 1 && number(header + 48, 8) < 64) print header + 48
    }')
for place in $places; do
    printf '\100' | dd of="$archive" bs=1 seek="$place" conv=notrunc 2>/dev/null || exit 1
done
