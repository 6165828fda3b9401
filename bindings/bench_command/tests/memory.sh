# To be sourced by test.sh: too little memory is told in a line that names the file and the bytes, and never ends a run by a signal.

# Runs these words with so much address space, in units of 1,024 bytes.
within() {
    space=$1
    shift
    status=0
    (ulimit -v "$space" && exec "$padcheck" "$@") >"$out/stdout" 2>"$out/stderr" || status=$?
    case $status in
    0 | 1) [ ! -s "$out/stderr" ] || failed "padcheck $* within $space: standard error is not empty" ;;
    2)
        lacking=$((lacking + 1))
        one_line "no memory for " "$* within $space"
        grep -Eq '^padcheck: (cannot read )?[^ ]+( chart [0-9]+| with [^ ]+)?: no memory for [0-9]+ bytes$' "$out/stderr" ||
            failed "padcheck $* within $space: not the file and the bytes"
        ;;
    *) failed "padcheck $* within $space: status $status" ;;
    esac
    passed=$((passed + 1))
}

# Texts of some 4 MB: rows, measures without rows, and charts without a field. Of measures of 192 rows nothing is said besides.
yes 1000 | sed '192~192 s/$/\n,/' | head -c 4000000 >"$out/rows"
yes , | head -c 4000000 >"$out/measures"
yes '#NOTES:;' | head -c 4000000 >"$out/many.sm"
{
    printf '#NOTES:dance-single:::::\n'
    cat "$out/rows"
} >"$out/one.sm"
# Notes of 4 MB, which are a chart of 1 MB.
run 0 rig "$out/one.sm" --chart 0 --notes "$out/many.notes" --beats "$out/b" --rows "$out/many.rows"
# 800,000 presses on its first note.
head -c 4000000 /dev/zero >"$out/many.trace"
lacking=0
for space in 8000 16000 32000 64000 100000 150000 250000 400000; do
    within "$space" charts "$out/many.sm"
    within "$space" sheet "$out/one.sm" --form card
    within "$space" sheet "$out/measures" --lanes 10 --force
    within "$space" dropped "$out/one.sm"
    within "$space" dropped "$out/measures" --lanes 10 --force --form json
    within "$space" rig "$out/one.sm" --chart 0 --notes "$out/n" --beats "$out/b" --rows "$out/r"
    within "$space" rig "$out/measures" --lanes 10 --force --notes "$out/n" --beats "$out/b" --rows "$out/r"
    within "$space" write "$out/many.notes" "$out/many.rows" --lanes 4
    within "$space" trace "$out/one.sm" "$out/many.trace" --chart 0
    within "$space" diff "$out/rows" "$out/measures" --lanes 4 --force
done
[ "$lacking" -ge 20 ] || failed "only $lacking runs had too little memory"
[ "$status" -eq 0 ] || failed "padcheck diff within 400000: status $status"

# 16 MB within 400,000 units: the page of a sheet has 42 bytes for each byte of the text.
{
    yes 1000 | sed '192~192 s/$/\n,/' | head -c 15999984
    printf '// 16 bytes more'
} >"$out/rows"
within 400000 sheet "$out/rows" --lanes 4
[ "$(cat "$out/stderr")" = "padcheck: $out/rows: no memory for 672003042 bytes" ] || failed "the page of a sheet of 16 MB"
rm "$out/rows" "$out/measures" "$out/many.sm" "$out/many.notes" "$out/many.rows" "$out/many.trace" "$out/one.sm" "$out/stdout" "$out/n" "$out/b" "$out/r"
