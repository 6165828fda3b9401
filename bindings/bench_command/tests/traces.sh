# To be sourced by test.sh: the word trace, beside stored output and with traces by hand.
trace=examples/first-steps.trace given=bindings/bench_command/tests/given

# One of the three is without a press, one has a press a row late, and one has a press that falls.
stored 0 trace trace "$sm" "$trace" --chart 0
stored 0 trace trace --form print "$sm" --chart=0 "$trace"
stored 0 trace.json trace "$sm" "$trace" --chart 0 --form json
stored 0 trace.lanes trace "$chart" "$trace" --lanes 4
stored 1 trace.missed trace "$sm" "$given/missed.trace" --chart 0
stored 1 trace.missed.json trace "$sm" "$given/missed.trace" --chart 0 --form json
stored 1 trace.moved trace "$sm" "$given/moved.trace" --chart 0
stored 1 trace.moved.json trace "$sm" "$given/moved.trace" --chart 0 --form=json
stored 1 trace.falls trace "$sm" "$given/falls.trace" --chart 0
stored 1 trace.falls.json trace "$sm" "$given/falls.trace" --chart 0 --form json
stored 1 trace.double trace "$sm" "$trace" --chart 2
stored 1 trace.empty trace bindings/bench_command/tests/given/three.sm /dev/null --chart 1
answered 0 trace.forced trace "$given/comma-behind.sm" "$given/forced.trace" --force
answered 0 trace.forced.json trace "$given/comma-behind.sm" "$given/forced.trace" --force --form json

# Length and checksum of the trace are those that wc and cksum print.
run 0 trace "$sm" "$trace" --chart 0
sum=$(cksum <"$trace")
printf 'trace       %s\nlength     %10d\ncksum      %10d\n' "$trace" "${sum#* }" "${sum% *}" >"$out/wanted"
sed -n '/^trace/,/^$/p' "$out/stdout" | head -n -1 | diff "$out/wanted" - || failed "the head of a trace"
passed=$((passed + 1))

# Writes presses, each a row and a column, as a trace.
presses() {
    while [ $# -gt 0 ]; do
        octal=$(printf '\\%03o\\%03o\\%03o\\%03o\\%03o' $(($1 & 255)) $(($1 >> 8 & 255)) $(($1 >> 16 & 255)) $(($1 >> 24)) "$2")
        printf "$octal"
        shift 2
    done >"$out/trace"
}

# What is said of presses on a chart: rows 0 to 3, a tap on each column in turn.
pressed() {
    want=$1 text=$2
    shift 2
    presses "$@"
    printed "$want" "$text" trace "$given/chart.sm" "$out/trace"
}
first() {
    printf 'first %-5s %10s %7s %7s %12s  %s' "$@"
}
pressed 0 "PASS, 4 of 4" 0 0 1 1 2 2 3 3
pressed 1 "$(first miss 2 0 2 2 "2 up")" 0 0 1 1 3 3
pressed 1 "misses              4" 
pressed 1 "$(first stray 0 0 0 0 "0 left")" 0 0 0 0 1 1 2 2 3 3
pressed 1 "strays              3" 0 0 1 1 1 1 1 1 1 1 2 2 3 3
pressed 1 "$(first stray 1 0 1 1 "3 right")" 0 0 1 1 1 3 2 2 3 3
pressed 1 "$(first stray 4 - - - "3 right")" 0 0 1 1 2 2 3 3 4 3
pressed 1 "$(first stray 4294967295 - - - 9)" 0 0 1 1 2 2 3 3 4294967295 9
pressed 1 "9                   0          0  not in the layout" 0 0 1 1 2 2 3 3 3 9
printed 1 "$(first miss 0 0 0 0 "0 left")" trace "$given/chart.sm" "$out/empty"
printed 1 "$(first miss 0 0 0 0 "0 left")" trace "$given/chart.sm" /dev/null

# Presses on a mine and on a tail are strays, and neither wants one. The columns up and right are without a note.
printf '2000\n01M0\n3000\n0100\n' >"$out/mines"
presses 0 0 1 1 3 1
printed 0 "PASS, 3 of 3, no note on up, right" trace "$out/mines" "$out/trace" --lanes 4
printed 0 "2 up                0          0  no press" trace "$out/mines" "$out/trace" --lanes 4
printed 0 '"verdict":"pass","no_note":[2,3],' trace "$out/mines" "$out/trace" --lanes 4 --form json
presses 0 0 1 1 1 2 3 1
printed 1 "$(first stray 1 0 1 1 "2 up")" trace "$out/mines" "$out/trace" --lanes 4
presses 0 0 1 1 2 0 3 1
printed 1 "$(first stray 2 0 2 2 "0 left")" trace "$out/mines" "$out/trace" --lanes 4
printf 'M000\n0L00\n00F0\n0000\n' >"$out/mines"
printed 1 "nothing to press" trace "$out/mines" "$out/empty" --lanes 4
printed 1 '"verdict":"nothing_to_press","no_note":[0,1,2,3],' trace "$out/mines" "$out/empty" --lanes 4 --form json
presses 1 1
printed 1 "nothing to press" trace "$out/mines" "$out/trace" --lanes 4
printed 1 "$(first stray 1 0 1 1 "1 down")" trace "$out/mines" "$out/trace" --lanes 4

# 16, with the record: part of a press, a column over 9, a press that falls.
broken() {
    printed 1 "refused 16: the trace has part of a press, a column over 9, or a press that" trace "$given/chart.sm" "$out/trace"
    grep -qxF "$1" "$out/stdout" || failed "'$1' is not a line"
    printed 1 "\"refused\":16,\"words\":\"the trace has part of a press, a column over 9, or a press that falls, by whoever records the trace\",\"record\":" \
        trace "$given/chart.sm" "$out/trace" --form json
}
presses 0 0 1 10 1 11
broken "record 1 has column 10, over 9"
presses 0 255
broken "record 0 has column 255, over 9"
presses 0 0 256 3 255 3
broken "record 2 falls: row 255 after row 256"
presses 0 0 2 2 2 1
broken "record 2 falls: in row 2 column 1 after column 2"
presses 0 0 1 1
for bytes in 1 2 3 4; do
    printf 0 >>"$out/trace"
    broken "record 2 has $bytes of its 5 bytes"
done
presses 3 3 2 2
printf 0 >>"$out/trace"
broken "record 1 falls: row 2 after row 3"

# A million presses on one note: one hit, the rest strays. More presses than the longest text has bytes are not read.
head -c 5000000 /dev/zero >"$out/trace"
printed 1 "strays         999999" trace "$given/chart.sm" "$out/trace"
told 2 "/dev/zero is longer than any trace that is read" trace "$given/chart.sm" /dev/zero

# The chart is chosen as everywhere; of a file with one chart it needs no number. The same file may be both.
told 2 "$sm has 3 charts: --chart K is wanted" trace "$sm" "$trace"
printed 1 "refused 10: the chart has another type name, by whoever writes the SM file" trace "$sm" "$trace" --chart 1
printed 1 "refused 11: the file has no such block, by whoever asks for the chart" trace "$sm" "$trace" --chart 3
printed 1 '"refused":11,"words":' trace "$sm" "$trace" --chart 3 --form json
printed 1 "refused 11: the file has no such block, by whoever asks for the chart; none of" trace "$chart" "$trace"
printed 1 "refused 1: the text or file, or the text to be written, is longer" trace /dev/zero "$trace" --lanes 4
for lanes in 0 1 3 7 9 11 260 4294967300 18446744073709551615; do
    printed 1 "$other" trace "$chart" "$trace" --lanes "$lanes"
done
printed 1 "record 0 has column 76, over 9" trace "$sm" "$sm" --chart 0
printed 1 "record 0 has column 105, over 9" trace "$chart" "$chart" --lanes 4
cp "$given/chart.sm" "$out/both.sm"
printed 1 "refused 16: " trace "$out/both.sm" "$out/both.sm"
told 2 "cannot read no/such/file: No such file" trace no/such/file "$trace" --chart 0
told 2 "cannot read no/such/file: No such file" trace "$sm" no/such/file --chart 0
told 2 "cannot read .: Is a directory" trace . "$trace" --lanes 4
told 2 "cannot read .: Is a directory" trace "$sm" . --chart 0
told 2 "trace: two files are wanted, not 0" trace
told 2 "trace: two files are wanted, not 1" trace "$sm" --chart 0
told 2 "trace: two files are wanted, not 3" trace "$sm" "$trace" "$trace" --chart 0
told 2 "trace: --form needs print or json here, and not \`card\`" trace "$sm" "$trace" --chart 0 --form card
told 2 "--chart is for an SM file and --lanes for bare note data" trace "$sm" "$trace" --chart 0 --lanes 4
told 2 "\`--notes\` is not known here" trace "$sm" "$trace" --notes "$out/n"
told 3 "$sm is doubtful: its first byte is #" trace "$sm" "$trace" --lanes 4
noted 1 "misses              3" "odd.sm chart 0: measure 1 on line 15 has 5 rows, which do not divide 192" trace "$given/odd.sm" /dev/null
