#!/bin/bash
# Runs the listing, or another program of ./run, on every *.in of a folder and compares what it prints with the *.out of the same name, byte for byte.
#
#   tests/listing/compare.sh FOLDER [PROGRAM]
set -uo pipefail
if [ $# = 0 ] || ! [ -d "$1" ]; then
    echo 'usage: tests/listing/compare.sh FOLDER [PROGRAM]' >&2
    exit 2
fi
folder=$(cd "$1" && pwd -P)
program=${2:-listing}
cd "$(dirname "$0")/../.." || exit
same=0 other=0
for input in "$folder"/*.in; do
    [ -e "$input" ] || break
    if ./run "$program" <"$input" | cmp -s - "${input%.in}.out"; then
        same=$((same + 1))
    else
        other=$((other + 1))
        echo "differs: ${input##*/}"
    fi
done
echo "$same the same, $other different"
[ $other = 0 ] && [ $same != 0 ]
