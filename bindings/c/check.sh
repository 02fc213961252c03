#!/bin/bash
# Builds the static library, compiles smoke.c against it for x86-64 by the toolchain's compiler and runs it.
#
#   bindings/c/check.sh            every function of the header, by smoke.c
#   bindings/c/check.sh FOLDER..   also the listing through the archive, by listing.c: each NAME.in of the folders against its NAME.out
#
# JOMANKITU_LIB names the folder of an archive that was built before.
set -euo pipefail
cd "$(dirname "$0")/../.."
kit=$(dirname "$(rt doc)")
tools=$kit/toolchain
room=$(mktemp -d)
trap 'rm -rf "$room"' EXIT
library=${JOMANKITU_LIB:-target/staticlib}
[ -n "${JOMANKITU_LIB:-}" ] || bindings/archive >"$room/say" 2>&1 || { cat "$room/say" >&2; exit 1; }
# the toolchain's compiler comes without headers: these two say what is used of them
printf '%s\n' 'typedef __SIZE_TYPE__ size_t;' '#define NULL ((void *)0)' >"$room/stddef.h"
echo 'typedef __UINT8_TYPE__ uint8_t; typedef __UINT16_TYPE__ uint16_t; typedef __UINT64_TYPE__ uint64_t;' >"$room/stdint.h"
program() { # NAME
    "$tools/bin/clang" --target=x86_64-unknown-linux-gnu -std=c11 -ffreestanding -O2 -fPIE -Wall -Wextra -Werror -I "$room" -c "bindings/c/$1.c" -o "$room/$1.o"
    "$kit/bin/rattle-link" --target x86_64-unknown-linux-gnu --toolchain "$tools" -o "$room/$1" "$room/$1.o" "$library/libexports.a" >"$room/say" 2>&1
}
program smoke
wrong=0
"$room/smoke" || wrong=$?
[ "$wrong" = 0 ] || { echo "bindings/c: check $wrong is wrong" >&2; exit 1; }
echo 'bindings/c: all checks are right'
[ $# -gt 0 ] || exit 0
program listing
same=0 different=0
for folder; do
    for input in "$folder"/*.in; do
        if "$room/listing" <"$input" | cmp -s - "${input%.in}.out"; then same=$((same + 1)); else different=$((different + 1)); echo "$input differs"; fi
    done
done
echo "$same the same, $different different"
[ "$different" = 0 ]
