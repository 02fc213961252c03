#!/bin/bash
# Measures the calls over the engine: instructions of needed_k and of automata at a limit, against the engine's calls for k = 1 up to that limit.
# tools/counting.sh says how they are counted.
#
#   tools/measure_calls.sh FOLDER [LIMIT]      for each *.table of the folder; the limit is 3 if none is named
#   tools/measure_calls.sh --abnf FILE         of read_abnf on one text of rules
#   tools/measure_calls.sh --mark FILE [LIMIT] of mark on one table, with some and with all rows of its automata, in two orders
#
# All are the program tests/bench/calls.c, linked with the static library. c is the least with which neither the engine nor needed_k is refused 11
# anywhere. A call that is refused (22 where no k serves, 23 for too large a tree) says so in place of a count.
set -euo pipefail
cd "$(dirname "$0")/.."
[ $# -gt 0 ] || { sed -n '5,7p' "$0" >&2; exit 2; }
. tools/counting.sh
archive
compile tests/bench/calls.c calls.o
link calls "$room/calls.o" "$library"

if [ "$1" = --abnf ]; then
    [ $# -eq 2 ] || { sed -n 6p "$0" >&2; exit 2; }
    echo "$(once calls "$2" abnf 1 1) instructions, $(run calls "$2" abnf 1 1 1) bytes of table"
    exit
fi
if [ "$1" = --mark ]; then
    table=${2:?} limit=${3:-3}
else
    folder=$1 limit=${2:-3}
fi
serves() { # C TABLE
    run calls "$2" needed "$limit" "$1" 1 >"$room/out" && run calls "$2" engine "$limit" "$1" 1 >"$room/out"
}
answered() { run "$@" 1 >"$room/out"; } # PROGRAM WORD..
told() { # WAY TABLE C: the count, or the refusal
    local status=0
    run calls "$2" "$1" "$limit" "$3" 1 >"$room/out" || status=$?
    if [ $status = 0 ]; then once calls "$2" "$1" "$limit" "$3"; else echo "refused $status"; fi
}
# Rows are taken in order, and scattered by steps of 769; a call without rows is what the grammar alone takes.
if [ "$1" = --mark ]; then
    c=$(least serves "$table")
    [ -n "$c" ] || { echo 'refused at c = 1024'; exit 1; }
    marked() { # ROWS STEP WORD..: mark on so many rows by a command
        run calls "$table" list "$limit" "$c" "$1" "$2" >"$room/rows"
        input=$room/rows "${@:3}" calls "$table" mark "$limit" "$c"
    }
    all=$(($(run calls "$table" list "$limit" "$c" 100000 1 | wc -c) / 32))
    none=$(marked 0 1 once)
    echo "c $c, $all rows; needed_k $(once calls "$table" needed "$limit" "$c"), mark without rows $none"
    row='%6s %14s %10s %10s\n'
    printf "$row" rows answer 'in order' scattered
    for many in $((all / 4)) $((all / 2)) "$all"; do
        status=0
        marked "$many" 1 answered || status=$?
        printf "$row" "$many" "$([ $status = 0 ] && echo accepted || echo "refused $status")" $(($(marked "$many" 1 once) - none)) $(($(marked "$many" 769 once) - none))
    done
    exit
fi
row='%-10s %5s %13s %13s %13s %6s\n'
printf "$row" grammar c engine needed_k automata bytes
for table in "$folder"/*.table; do
    name=$(basename "$table" .table)
    c=$(least serves "$table")
    [ -n "$c" ] || { echo "$name: refused at c = 1024"; continue; }
    printf "$row" "$name" "$c" "$(told engine "$table" "$c")" "$(told needed "$table" "$c")" "$(told automata "$table" "$c")" "$(run calls "$table" automata "$limit" "$c" 1 || true)"
done
