#!/bin/sh
# Counts the instructions a row of every call at every lane count by callgrind, whose counts repeat exactly, and compares them
# with the stored ones (bench/instructions.txt). A cell that has grown by more than 5 percent fails; one that has fallen by
# more is told. Beside each stands the Rust's count on the same text, beside `notes_to_chart` the main call's on the text that it writes, beside
# `press_trace`, whose counts are those a record of both its lists, the plain reference's, and a cell fails too where that by ours is 3 percent less
# than what is stored. `--write` stores the counts instead, and `--table` prints the Rust's by ours of the stored ones but `press_trace`. The library is built first,
# or taken from PADCHECK_LIB_DIR where that is set. The last line is 'N passed, 0 failed'.
#
# What is counted are the instructions of libpadcheck.a's own functions. Those that ask whether a slice is 0 already are counted by
# themselves: they go by the length of what is lent, and not by the text. Those of the C library's memset and memcpy are left
# out, since it picks them by the processor; how often they are called a row is counted instead, and may not grow either.
set -eu
cd "$(dirname "$0")/.."
. tests/need.sh
need "instructions are counted with it" rustc valgrind
stored=bench/instructions.txt
program=target/bench/bench
counts=target/bench/counts
write=${1:-}
case $write in
'' | --write) ;;
--table)
    # Of each kind of text and call the least over line ends and lane counts but six, which the Rust reads as four.
    awk '
        NF == 8 && $4 != 6 && $1 != "press_trace" {
            if (!($2 in kinds)) { kinds[$2]; kind[++k] = $2 }
            if (!($1 in calls)) { calls[$1]; call[++c] = $1 }
            ratio = $8 / $5
            if (!(($1, $2) in least) || ratio < least[$1, $2]) least[$1, $2] = ratio
        }
        END {
            printf "| text |"
            for (i = 1; i <= c; i++) printf " `%s` |", call[i]
            printf "\n|---|"
            for (i = 1; i <= c; i++) printf "---|"
            for (j = 1; j <= k; j++) {
                printf "\n| %s |", kind[j]
                for (i = 1; i <= c; i++) if ((call[i], kind[j]) in least) printf " %.2f |", least[call[i], kind[j]]; else printf " |"
            }
            print ""
        }' "$stored"
    exit 0
    ;;
*)
    sed -n '2,7s/^# \{0,1\}//p' "$0"
    exit 2
    ;;
esac
sh bench/build.sh

# One file for each call that is made, numbered in their order; the program's own lines say which they are.
rm -rf "$counts"
mkdir -p "$counts"
set --
for call in $(sed -n 's/^uint32_t \(padcheck_[a-z_]*\)(.*/\1/p' include/padcheck.h); do
    set -- "$@" "--dump-after=$call"
done
valgrind --tool=callgrind --callgrind-out-file="$counts/count" --toggle-collect='padcheck_*' --toggle-collect=rust_call "$@" \
    --dump-after=rust_call --compress-strings=no --compress-pos=no "$program" --once >"$counts/cells" 2>"$counts/log" || {
    cat "$counts/log"
    exit 1
}

# Instructions, those of the asking, and calls into other objects of one count, by the lines of callgrind's format: `ob=` is the
# object and `fn=` the function that the following costs belong to, `cob=` the object of a called function, and the line after
# `calls=` has what the callee cost.
count() {
    awk -v own="/$program" '
        function is_own(name) { return substr(name, length(name) - length(own) + 1) == own }
        /^ob=/ { here = is_own($0); next }
        /^fn=/ { asks = index($0, "fn=slices::are_all") == 1; next }
        /^cob=/ { elsewhere = !is_own($0); next }
        /^calls=/ {
            if (here && elsewhere) { sub(/^calls=/, "", $1); calls += $1 }
            elsewhere = 0
            of_callee = 1
            next
        }
        /^[0-9]/ {
            if (here && !of_callee) { if (asks) asking += $2; else instructions += $2 }
            of_callee = 0
        }
        END { print instructions + 0, asking + 0, calls + 0 }' "$1"
}
number=0
while read -r call text lines lanes rows; do
    number=$((number + 1))
    case $call in
    rust_*) form=' %.2f' ;;
    *) form="\\n$call $text $lines $lanes %.2f %.2f %.3f" ;;
    esac
    count "$counts/count.$number" | awk -v rows="$rows" -v form="$form" '{ printf form, $1 / rows, $2 / rows, $3 / rows }'
done <"$counts/cells" | sed -n '/./p' >"$counts/measured"
number=$(wc -l <"$counts/cells")
if [ "$number" -eq 0 ] || [ -e "$counts/count.$((number + 1))" ]; then
    echo "instructions.sh: the counts and the calls are not as many"
    exit 1
fi
cells=$(wc -l <"$counts/measured")
if [ "$write" = --write ]; then
    cp "$counts/measured" "$stored"
    echo "$cells cells written to $stored"
    exit 0
fi

# The measured figures beside those of a file: says what differs, and fails where a cell has grown or stands on one side alone.
compare() {
    awk '
        { cell = $1 " " $2 " " $3 " " $4 }
        NR == FNR { instructions[cell] = $5; asking[cell] = $6; calls[cell] = $7; rust[cell] = $8; next }
        !(cell in instructions) { print cell ": no stored figure"; failed = 1; next }
        {
            seen[cell] = 1
            was = instructions[cell]
            if ($5 > 1.05 * was) {
                printf "%s: %.2f instructions a row, stored %.2f: grew by %.1f percent\n", cell, $5, was, 100 * ($5 / was - 1)
                failed = 1
            } else if ($5 < 0.95 * was) {
                printf "%s: %.2f instructions a row, stored %.2f: fell by %.1f percent, --write stores it\n", cell, $5, was, 100 * (1 - $5 / was)
            }
            if ($6 > 1.05 * asking[cell] + 0.01) {
                printf "%s: %.2f instructions a row that ask for zeros, stored %.2f\n", cell, $6, asking[cell]
                failed = 1
            }
            if ($7 > 1.05 * calls[cell] + 0.01) {
                printf "%s: %.3f calls of memset and memcpy a row, stored %.3f\n", cell, $7, calls[cell]
                failed = 1
            }
            if ($5 <= 1.05 * was && $8 * was < 0.97 * rust[cell] * $5) {
                printf "%s: the Rust takes %.2f times as many, stored %.2f\n", cell, $8 / $5, rust[cell] / was
                failed = 1
            }
        }
        END {
            for (cell in instructions) if (!(cell in seen)) { print cell ": stored, but not counted"; failed = 1 }
            exit failed
        }' "$1" "$counts/measured"
}
if ! compare "$stored"; then
    echo "instructions.sh: a call takes more than it did, or is stored or counted alone; look at what the compiler writes into its loops (docs/SPEED.md)"
    exit 1
fi
passed=$cells

# That the comparison can fail: beside the figures themselves, one of them changed, it must end and say as it should.
changed() {
    want=$1 words=$2 change=$3
    awk "NR == 1 { $change } { print }" "$counts/measured" >"$counts/changed"
    status=0
    compare "$counts/changed" >"$counts/said" || status=$?
    if [ "$status" -ne "$want" ] || [ "$(cat "$counts/said")" != "$words" ]; then
        echo "instructions.sh: after '$change' of the first stored cell the comparison ended with $status, should be $want, and said:"
        cat "$counts/said"
        exit 1
    fi
    passed=$((passed + 1))
}
read -r call text lines lanes is asking calls rust <"$counts/measured"
cell="$call $text $lines $lanes"
by() { awk -v is="$1" -v by="$2" -v less="$3" -v form="$4" 'BEGIN { printf form, is / by - less }'; }
lower=$(by "$is" 1.1 0 %.2f) higher=$(by "$is" 0.9 0 %.2f) less=$(by "$asking" 1.1 0.02 %.2f) fewer=$(by "$calls" 1.1 0.02 %.3f) more=$(by "$rust" 0.9 0 %.2f)
ratio() { awk -v rust="$1" -v is="$is" 'BEGIN { printf "%.2f", rust / is }'; }
changed 0 '' ''
changed 0 '' '$5 = $5 / 1.02'
changed 0 "$cell: $is instructions a row, stored $higher: fell by 10.0 percent, --write stores it" "\$5 = $higher"
changed 1 "$cell: $is instructions a row, stored $lower: grew by 10.0 percent" "\$5 = $lower"
changed 1 "$cell: $asking instructions a row that ask for zeros, stored $less" "\$6 = $less"
changed 1 "$cell: $calls calls of memset and memcpy a row, stored $fewer" "\$7 = $fewer"
changed 1 "$cell: the Rust takes $(ratio "$rust") times as many, stored $(ratio "$more")" "\$8 = $more"
changed 1 "$cell: no stored figure" next
changed 1 "$call $text $lines 99: stored, but not counted" "print; \$4 = 99"
echo "$passed passed, 0 failed"
