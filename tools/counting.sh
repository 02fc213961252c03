# For the scripts beside this one: the static library, programs over it for x86-64 by one compiler, the toolchain's own, and the instructions of a run.
# Sourced, from the top of the repository; $room is a folder that is removed at the end. JOMANKITU_LIB names the folder of an archive that was built before.
#
# Where an emulator, qemu-x86_64, is on the path, its trace names each block of instructions that is run. A run with blocks of one instruction tells where
# instructions begin, so that those of each block are known: a count is exact and repeats. Else perf counts, or valgrind where perf has no counter; its
# counts are exact and repeat, too, but are not the emulator's: compare within one way of counting.
kit=$(dirname "$(rt doc)")
tools=$kit/toolchain
emulator=$(command -v qemu-x86_64 || true)
loader=("$tools/lib/ld-linux-x86-64.so.2" --library-path "$tools/lib")
input=/dev/null # what a program reads
room=$(mktemp -d)
trap 'rm -rf "$room"' EXIT

library=${JOMANKITU_LIB:-target/staticlib}/libexports.a
archive() { # proves the library and leaves it in $library
    [ -n "${JOMANKITU_LIB:-}" ] || bindings/archive >"$room/say" 2>&1 || { cat "$room/say" >&2; exit 1; }
}
compile() { # FILE OBJECT FLAG..
    "$tools/bin/clang" --target=x86_64-unknown-linux-gnu -O2 -fPIE -Wall -Wextra "${@:3}" -c "$1" -o "$room/$2"
}
link() { # PROGRAM FILE..
    "$kit/bin/rattle-link" --target x86_64-unknown-linux-gnu --toolchain "$tools" -o "$room/$1" "${@:2}" >"$room/link" 2>&1 || { cat "$room/link" >&2; exit 1; }
}
run() { # PROGRAM WORD..
    "${loader[@]}" "$room/$1" "${@:2}" <"$input"
}

# from the places where instructions begin, and a trace of blocks with their bytes: how many instructions were run. No block begins one in a second page.
# An instruction that repeats itself is a block of its own from the second time on, and counts once, as it does on the processor
counting='
function low(hex,  i, n) { for (i = length(hex) - 2; i <= length(hex); i++) n = 16 * n + index("0123456789abcdef", substr(hex, i, 1)) - 1; return n }
function page(hex) { return substr(hex, 1, length(hex) - 3) }
NR == FNR { begins[page($0), low($0)]; next }
/^Trace/ { split($0, part, "/"); times[part[2]]++; next }
/^0x/ { block = substr($1, 3, length($1) - 3); bytes[block] = 0; next }
/^OBJD-T/ { if (bytes[block] == 0) again[block] = $2 ~ /^f3(48)?a[45ab]/; bytes[block] += length($2) / 2 }
END {
    for (place in times) {
        block = place
        sub(/^0+/, "", block)
        if (again[block]) continue
        size = 0
        for (at = low(block); at < low(block) + bytes[block]; at++) if ((page(block), at) in begins) size++
        all += times[place] * size
    }
    printf "%.0f\n", all
}'
counter=valgrind
if [ -n "$emulator" ]; then
    counter=emulator
elif perf stat -x, -e instructions:u -o "$room/perf" true >/dev/null 2>&1 && grep -q '^[0-9]' "$room/perf"; then
    counter=perf
fi
count() { # PROGRAM WORD..: the instructions of a run, whatever its exit status
    case $counter in
    emulator)
        { "$emulator" -one-insn-per-tb -d in_asm "${loader[@]}" "$room/$1" "${@:2}" 2>&1 >"$room/out" <"$input" || true; } | sed -n 's/^0x\(.*\):.*/\1/p' >"$room/begins"
        { "$emulator" -d exec,nochain,in_asm "${loader[@]}" "$room/$1" "${@:2}" 2>&1 >"$room/out" <"$input" || true; } | awk "$counting" "$room/begins" -
        ;;
    perf)
        perf stat -x, -e instructions:u -o "$room/perf" "${loader[@]}" "$room/$1" "${@:2}" >"$room/out" <"$input" || true
        sed -n 's/,.*instructions.*//p' "$room/perf"
        ;;
    valgrind)
        valgrind --tool=callgrind --callgrind-out-file="$room/callgrind" --log-file="$room/log" "${loader[@]}" "$room/$1" "${@:2}" >"$room/out" <"$input" || true
        sed -n 's/.*Collected : *//p' "$room/log"
        ;;
    esac
}
# A program does its work as often as its last word says: a count of it once is the difference between twice and once, so that what the program does
# before and after is not in it.
once() { # PROGRAM WORD..
    echo $(($(count "$@" 2) - $(count "$@" 1)))
}
least() { # SERVES WORD..: the least c from 1 to 1,024 with which the command SERVES, given c and the words, succeeds; nothing where none does
    local low=0 high=1024 mid
    "$1" $high "${@:2}" || return 0
    while [ $((low + 1)) -lt $high ]; do
        mid=$(((low + high) / 2))
        if "$1" $mid "${@:2}"; then high=$mid; else low=$mid; fi
    done
    echo $high
}
over() { awk -v a="$1" -v b="$2" 'BEGIN { printf "%.2f", a / b }'; }
