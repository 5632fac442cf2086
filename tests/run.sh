#!/bin/sh
# The command ./run, called rightly and wrongly: its exit status, what it prints and what it says. The program is proved and
# built before, so that each call is short.
#
#     tests/run.sh
set -u
cd "$(dirname "$0")/.." || exit 2
room=$(mktemp -d) || exit 2
trap 'rm -rf "$room"' EXIT
run=0 wrong=0

# Calls ./run, and holds the exit status, standard output and standard error to what is due.
call() { # STATUS PRINTED SAID [WORD...]
    status=$1 printed=$2 said=$3
    shift 3
    run=$((run + 1))
    ./run "$@" >"$room/out" 2>"$room/err"
    got=$?
    printf '%s' "$printed" >"$room/due.out"
    printf '%s' "$said" >"$room/due.err"
    if [ "$got" -ne "$status" ] || ! cmp -s "$room/out" "$room/due.out" || ! cmp -s "$room/err" "$room/due.err"; then
        wrong=$((wrong + 1))
        echo "./run $*: status $got, due is $status (- due, + printed)"
        diff -u "$room/due.out" "$room/out" | tail -n +4
        diff -u "$room/due.err" "$room/err" | tail -n +4
    fi
}

usage='usage: ./run, or ./run [--check] FILE    (FILE: a record stream, as text or as bytes; docs/REFERENCE.md)
'
call 0 "$usage" '' --help
call 0 "$usage" '' -h
call 2 '' "$usage" --cheque
call 2 '' "$usage" one two
call 2 '' "$usage" --check
call 2 '' "$usage" --check one two
call 2 '' "$room/none.txt: there is no such file
" "$room/none.txt"
call 2 '' "$room: it is no file
" "$room"

call 0 'N 2 6 3 0
A 3 1 2 3
A 2 2 3
N 3 8 6 1
R 21 84
' ''

my=$room/my.txt
cat >"$my" <<'END'
network 3 root 0     # three nodes; routes start at node 0
link 0 1 4 both 6    # link 0, from node 0 to node 1, cost 4; and back, link 1, cost 6
link 1 2 2 both 2    # links 2 and 3
ask 2
change 2 5           # link 2, from node 1 to node 2, now costs 5
apply
ask 2
END
call 0 'N 2 6 2 0
A 1 2
N 2 9 2 0
' '' "$my"
call 0 '1 batch, 6 rows: none differ
' '' --check "$my"

printf '\001\000\001\000\000\005\000\000' >"$room/my.stream"
call 0 'N 0 0 - -
' '' "$room/my.stream"
call 0 '0 batches, 1 row: none differ
' '' --check "$room/my.stream"

printf 'change 2 6\n\nchange 2 7\n' >>"$my"
said="$my:10: change 2 7: this link has a row already, on line 8 (refusal 9)
"
call 1 'N 2 6 2 0
A 1 2
N 2 9 2 0
R 9 50 45
' "$said" "$my"
call 1 '1 batch, 6 rows: none differ
' "$said" --check "$my"

: >"$room/empty"
call 1 'R 23 0
' "$room/empty: the stream has no records; the first has to be \`network\` (refusal 23)
" "$room/empty"

printf 'aks 2\n' >>"$my"
for way in '' --check; do
    call 2 '' "$my:11: \`aks\` is none of network, link, change, apply, ask and bytes
" ${way:+"$way"} "$my"
done

# The program by itself: a read that fails is the stream's end, a write that fails ends it, and its status is always 0.
if ! target/bin/routes <"$room" >"$room/out" || [ "$(cat "$room/out")" != "R 23 0" ]; then
    wrong=$((wrong + 1))
    echo "a read that fails isn't taken for the end"
fi
if ! target/bin/routes <"$room/my.stream" >/dev/full; then
    wrong=$((wrong + 1))
    echo "a write that fails ends with another status than 0"
fi

echo "$run calls of ./run, $wrong wrong"
[ "$wrong" -eq 0 ]
