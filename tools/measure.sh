#!/bin/bash
# Measures bench_strings against the same work in C (tests/bench/strings.c): instructions a round, and time. tools/counting.sh says how they are counted.
#
#   tools/measure.sh [MEMBERS..]      members of each set, 31 at most: 4 10 30 if none is named
#
# A round's count is half the difference between runs of three rounds and of one: what a program does before and after is not in it.
set -euo pipefail
cd "$(dirname "$0")/.."
. tools/counting.sh
(cd crates/bench_strings && rt run <stdin >"$room/out" 2>"$room/say") || { cat "$room/say" >&2; exit 1; }
cmp "$room/out" crates/bench_strings/stdout
echo 'rt: bench_strings is proved, and prints its checksum'
cp crates/bench_strings/out/bench_strings "$room/ours"
compile tests/bench/strings.c reference.o
link reference "$room/reference.o"

work() { # ROUNDS MEMBERS: what both read, with words enough for every join
    input=$room/in
    printf '%x %x %x\n' "$1" "$2" $((2 * ($2 * $2 + $2) + 1)) >"$input"
}
a_round() { # PROGRAM MEMBERS
    local one three
    work 1 "$2"
    one=$(count "$1")
    work 3 "$2"
    three=$(count "$1")
    echo $(((three - one) / 2))
}
seconds() { # PROGRAM: the least user time of five runs
    TIMEFORMAT=%U
    for _ in 1 2 3 4 5; do { time run "$1" >"$room/out"; } 2>&1; done | sort -n | sed -n 1p
}

input=crates/bench_strings/stdin
if ! run reference | cmp -s - crates/bench_strings/stdout; then
    echo 'the two do not print the same checksum' >&2
    exit 1
fi
[ $# -gt 0 ] || set -- 4 10 30
for members; do
    a=$(a_round ours "$members") b=$(a_round reference "$members")
    echo "members $members: $a instructions a round, C $b, ratio $(over "$a" "$b")"
done
for members; do
    rounds=$((1000000 / (members * members + 10)))
    work $rounds "$members"
    a=$(seconds ours) b=$(seconds reference)
    echo "members $members: $rounds rounds in $a s, C $b s, ratio $(over "$a" "$b")"
done
