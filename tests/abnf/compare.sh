#!/bin/bash
# Runs `./run abnf` on every *.abnf of a folder and compares what it prints with the *.out of the same name, byte for byte.
#
#   tests/abnf/compare.sh FOLDER
set -uo pipefail
if [ $# != 1 ] || ! [ -d "$1" ]; then
    echo 'usage: tests/abnf/compare.sh FOLDER' >&2
    exit 2
fi
folder=$(cd "$1" && pwd -P)
cd "$(dirname "$0")/../.." || exit
same=0 other=0
for text in "$folder"/*.abnf; do
    [ -e "$text" ] || break
    if ./run abnf <"$text" | cmp -s - "${text%.abnf}.out"; then
        same=$((same + 1))
    else
        other=$((other + 1))
        echo "differs: ${text##*/}"
    fi
done
echo "$same the same, $other different"
[ $other = 0 ] && [ $same != 0 ]
