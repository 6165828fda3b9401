#!/bin/sh
# Times what looks for ends of lines: a walk by `next_line` over a text of 16 MB whose every line ends within eleven bytes and over a pack
# of charts, each call on both, `sm_chart` on files of 16 MB, and a walk by `find_byte` over lines of 1 to 200 bytes. Prints nanoseconds a
# line, the best of some rounds. The two libraries, libpadcheck.a and libleaves.a, are built first, or taken from PADCHECK_LIB_DIR where
# that is set. Where PADCHECK_LIB_DIR_BEFORE is set too, that folder's stand beside them, in turns. `--instructions` prints the instructions
# a line of a walk by `next_line` instead, counted by callgrind. Run it on a machine that does nothing else.
set -eu
cd "$(dirname "$0")/.."
. tests/need.sh
need "the walks are built with it" rustc objcopy
rounds=5
lengths='1 4 8 11 15 16 17 24 200'
out=target/walks
mode=${1:-}
case $mode in
'') ;;
--instructions) need "instructions are counted with it" valgrind ;;
*)
    sed -n '2,6s/^# \{0,1\}//p' "$0"
    exit 2
    ;;
esac
if [ -z "${PADCHECK_LIB_DIR:-}" ]; then
    need "the libraries are built with it" rt
    sh tools/build.sh lib
    sh tools/build.sh leaves
    PADCHECK_LIB_DIR=target/staticlib
fi
sh tests/oracle/build.sh
mkdir -p "$out"
rustc --edition 2024 -O --crate-type rlib --crate-name padcheck -o "$out/libpadcheck.rlib" bindings/rust/src/lib.rs

# The program over the libraries of a folder; functions begin at multiples of 32 bytes, as in build.sh.
build() {
    mkdir -p "$out/$1"
    for it in "$2/libpadcheck.a" "$2/libleaves.a" target/oracle/liboracle.rlib; do
        objcopy --set-section-alignment '.text*=32' "$it" "$out/$1/${it##*/}"
    done
    rustc --edition 2024 -O --extern oracle="$out/$1/liboracle.rlib" --extern padcheck="$out/libpadcheck.rlib" \
        -L native="$out/$1" -l static=padcheck -l static=leaves -o "$out/$1/walks" bench/walks.rs
}
sides=now
if [ -n "${PADCHECK_LIB_DIR_BEFORE:-}" ]; then
    build before "$PADCHECK_LIB_DIR_BEFORE"
    sides='before now'
fi
build now "$PADCHECK_LIB_DIR"

# Lines 'side name text what number seconds' into a table: the best of each side, a line, and the second by the first.
table() {
    awk -v unit="$1" -v sides="$sides" '
        BEGIN {
            count = split(sides, side)
            printf "| what | lines |"
            for (i = 1; i <= count; i++) printf " %s |", side[i]
            print (count > 1 ? " now by before |" : "")
            printf "|---|---|"
            for (i = 1; i <= count; i++) printf "---|"
            print (count > 1 ? "---|" : "")
        }
        {
            cell = "`" $2 "` " $3
            if (!(cell in lines)) order[++cells] = cell
            lines[cell] = $5
            if (!(($1, cell) in best) || $6 < best[$1, cell]) best[$1, cell] = $6
        }
        END {
            for (c = 1; c <= cells; c++) {
                cell = order[c]
                printf "| %s | %d |", cell, lines[cell]
                for (i = 1; i <= count; i++) printf " %.2f |", best[side[i], cell] * unit / lines[cell]
                if (count > 1) printf " %.3f |", best["now", cell] / best["before", cell]
                print ""
            }
        }'
}

if [ "$mode" = --instructions ]; then
    for side in $sides; do
        for bytes in $lengths; do
            lines=$(valgrind --tool=callgrind --callgrind-out-file="$out/$side/count" --toggle-collect=leaves_next_line \
                "$out/$side/walks" --lines "$bytes" 2>"$out/$side/log")
            echo "$side next_line $bytes lines $lines $(sed -n 's/^totals: //p' "$out/$side/count")"
        done
    done | table 1
else
    for round in $(seq "$rounds"); do
        for side in $sides; do
            echo "round $round of $rounds: $side" >&2
            "$out/$side/walks" | sed "s/^/$side /"
        done
    done | table 1e9
fi
