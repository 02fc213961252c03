#!/bin/bash
# Measures the engine's call against the same call in C, by single inserts (tests/bench/engine.c) and by runs and merging (tests/bench/engine_fast.c):
# instructions of a whole analysis, from the bytes of a table to the last set. tools/counting.sh says how they are counted.
#
#   tools/measure_engine.sh FOLDER [K..]      for each *.table of the folder; at 2 3 4 if no k is named
#
# All are the program tests/bench/analysis.c, linked with the static library or with a C engine. c is the least that serves: where it serves, each
# greater one does. All must leave the same record and the same result words, but for the number of unfinished
# members, which is ours alone.
set -euo pipefail
cd "$(dirname "$0")/.."
[ $# -gt 0 ] || { sed -n 5p "$0" >&2; exit 2; }
folder=$1
shift
[ $# -gt 0 ] || set -- 2 3 4
. tools/counting.sh
archive
compile tests/bench/analysis.c ours.o -DCALL=jomankitu_lookahead_sets
compile tests/bench/analysis.c c.o -DCALL=analyse
compile tests/bench/engine.c engine.o
compile tests/bench/engine_fast.c engine_fast.o
link ours "$room/ours.o" "$library"
link c "$room/c.o" "$room/engine.o"
link fast "$room/c.o" "$room/engine_fast.o"

serves() { # C TABLE K
    run fast "$2" "$3" "$1" 1 >"$room/out"
}
row='%-10s %2s %5s %13s %13s %6s %13s %6s\n'
printf "$row" grammar k c ours C ratio 'fast C' ratio
for table in "$folder"/*.table; do
    name=$(basename "$table" .table)
    for k; do
        c=$(least serves "$table" "$k")
        if [ -z "$c" ]; then
            echo "$name $k: refused at c = 1024"
            continue
        fi
        for program in ours c fast; do run $program "$table" "$k" "$c" 1 >"$room/$program.words"; done
        cmp "$room/ours.words" "$room/c.words"
        cmp "$room/ours.words" "$room/fast.words"
        ours=$(once ours "$table" "$k" "$c") plain=$(once c "$table" "$k" "$c") fast=$(once fast "$table" "$k" "$c")
        printf "$row" "$name" "$k" "$c" "$ours" "$plain" "$(over "$ours" "$plain")" "$fast" "$(over "$ours" "$fast")"
    done
done
