# To be sourced by test.sh: every exit status, several files at once, and outputs that are full or closed.

# 1: what the library refuses stands in the output.
printed 1 "refused 10: the chart has another type name, by whoever writes the SM file" sheet "$sm" --chart 1
printed 1 "refused 11: the file has no such block, by whoever asks for the chart" sheet "$sm" --chart 3
printed 1 "refused 11: the file has no such block, by whoever asks for the chart; none of" sheet "$chart"
printed 1 "no such block, by whoever asks for the chart; none of its lines begins with #NOTES:" charts "$chart"
printed 1 "refused 1: the text or file, or the text to be written, is longer" sheet /dev/zero --lanes 4
printed 1 "refused 1: the text or file, or the text to be written, is longer" sheet /dev/zero
printed 1 "refused 1: the text or file, or the text to be written, is longer" charts /dev/zero
printed 1 '"chart":1,"type":"lights-cabinet","refused":10,"words":"the chart has another type name, by whoever writes the SM file"' sheet "$sm" --chart 1 --form json
printed 1 "refused 10: the chart has another type name, by whoever writes the SM file" dropped "$sm" --chart 1
printed 1 '"chart":1,"type":"lights-cabinet","refused":10,"words":' dropped "$sm" --chart 1 --form json
printed 1 "refused 11: the file has no such block, by whoever asks for the chart" dropped "$sm" --chart 3
printed 1 "refused 1: the text or file, or the text to be written, is longer" dropped /dev/zero --lanes 4
# Beside 12 no other refusal and no doubt is told. On paper the line is broken.
other="refused 12: the lane number is none of 4, 5, 6, 8 and 10, by whoever gives"
for lanes in 0 1 3 7 9 11 260 4294967300 18446744073709551615; do
    printed 1 "$other" sheet "$chart" --lanes "$lanes"
    printed 1 "$other" dropped "$chart" --lanes "$lanes"
    printed 1 "old $other" diff "$chart" "$chart" --lanes "$lanes"
done
printed 1 "$other" sheet /dev/zero --lanes 7
printed 1 '"refused":12,"words":"the lane number is none of' sheet "$chart" --lanes 7 --form json
told 1 "$other" rig "$chart" --lanes 7 --notes "$out/n" --beats "$out/b"
: >"$out/empty"
told 1 "$other" write "$out/empty" "$out/empty" --lanes 7
printed 1 "new refused 11" diff "$sm" "$chart" --chart 0
printf '#NOTES:dance-single:x;\n#NOTES::::::;\n#NOTES:dance-single:::::\n1000\n;\n' >"$out/few.sm"
printed 0 "chart 0 dance-single refused 9: the block has fewer than five fields, by whoever writes the SM file" \
    sheet "$out/few.sm" --form card
printed 0 "chart 1 refused 10: " sheet "$out/few.sm" --form card
printed 0 "rows 1" sheet "$out/few.sm" --form card
printed 1 "chart 1 refused 10: " sheet "$out/few.sm" --chart 1 --form card
sed '/-lights-cabinet /,/^;/d' "$sm" >"$out/two-charts.sm"
printed 0 "chart 1 dance-double" sheet "$out/two-charts.sm" --form card
printed 0 "2 charts, 0 refused" charts "$out/two-charts.sm"

# 2: arguments and inputs, with one line on standard error.
told 2 "charts, sheet, dropped, rig, write, trace or diff is wanted"
told 2 "\`print\` is no word; the words are charts, sheet, dropped, rig, write, trace and diff" print "$sm"
told 2 "sheet: a file is wanted" sheet
told 2 "dropped: a file is wanted" dropped
told 2 "dropped: --form needs print or json here, and not \`card\`" dropped "$sm" --form card
told 2 "\`--notes\` is not known here" dropped --notes "$sm"
told 2 "cannot read no/such/file: No such file" dropped no/such/file
told 2 "--lanes needs a number, and \`four\` is none" sheet "$chart" --lanes four
told 2 "\`--line\` is not known here" sheet --line "$sm"
told 2 "--chart is for an SM file and --lanes for bare note data" sheet "$sm" --chart 0 --lanes 4
told 2 "two files are wanted, not 1" diff "$sm"
told 2 "two files are wanted, not 1" write "$out/empty" --lanes 4
told 2 "write: --lanes N is wanted" write "$out/empty" "$out/empty"
told 2 "cannot read no/such/file: No such file" sheet no/such/file
told 2 "cannot read no/such/file: No such file" charts no/such/file
told 2 "cannot read no/such/file: No such file" diff "$sm" no/such/file
told 2 "cannot read .: Is a directory" sheet . --lanes 4
told 2 "cannot read no/such/file: No such file" write no/such/file "$out/empty" --lanes 4
told 2 "cannot read no/such/file: No such file" write "$out/empty" no/such/file --lanes 4
told 2 "/dev/zero is longer than those of any chart" write /dev/zero "$out/empty" --lanes 4
told 2 "/dev/zero is longer than those of any chart" write "$out/empty" /dev/zero --lanes 4
told 2 "$chart: line 1 is no row count" write "$out/empty" "$chart" --lanes 4
printf '4\n4 \n' >"$out/rows"
told 2 "$out/rows: line 2 is no row count" write "$out/empty" "$out/rows" --lanes 4

# 3: doubtful note data, which --force takes all the same.
doubtful() {
    told 3 "$out/doubtful is doubtful: $1" sheet "$out/doubtful" --lanes 4
    told 3 "$out/doubtful is doubtful: $1" dropped "$out/doubtful" --lanes 4
    told 3 "$out/doubtful is doubtful: $1" trace "$out/doubtful" "$out/empty" --lanes 4
    told 3 "$out/doubtful is doubtful: $1" rig "$out/doubtful" --lanes 4 --notes "$out/n" --beats "$out/b"
    printed 0 "no hold came to nothing" dropped "$out/doubtful" --lanes 4 --force
    printed 0 "measures 1" sheet "$out/doubtful" --lanes 4 --force --form card
    [ ! -e "$out/n" ] && [ ! -e "$out/b" ] || failed "rig wrote a file for doubtful data"
}
printf ' \n#TITLE:x;\n1000\n' >"$out/doubtful"
doubtful "its first byte is #, as that of an SM file, which is read without --lanes"
printf '// x\n1000\n0000\n0000\n  #NOTES:x\n' >"$out/doubtful"
doubtful "one of its lines begins with #NOTES:, as a chart in an SM file does"
printf '\357\273\2771000\n' >"$out/doubtful"
doubtful "it begins with a byte-order mark"
printf '1000\n0\000000\n' >"$out/doubtful"
doubtful "line 2 has a NUL byte"
printf '// nothing\n\n;\n1000\n' >"$out/doubtful"
doubtful "it has no rows at all"
printf '100\n001\n' >"$out/doubtful"
doubtful "every line is shorter than 4 lanes"
printf '0000\n10000\n00001\n' >"$out/doubtful"
doubtful "line 2 has \`0\` behind its 4 cells"
printf '1000\n;\n0100\n' >"$out/doubtful"
doubtful "line 3 looks like a row and stands below the ; that ends the chart"
told 3 "$sm is doubtful: its first byte is #" sheet "$sm" --lanes 4
told 3 "every line is shorter than 10 lanes" sheet "$chart" --lanes 10
printf '\357\273\277' | cat - "$sm" >"$out/marked.sm"
printed 0 "3 charts, 1 refused" charts "$out/marked.sm"
printf '\377\376#\0N\0O\0T\0E\0S\0:\0' >"$out/utf-16.sm"
printed 1 "refused 11: the file has no such block, by whoever asks for the chart; it begins with the byte-order mark of UTF-16" charts "$out/utf-16.sm"
printf '#NOTES:dance-single:::::\n10000\n;\n#NOTES:pump-single:::::\n10000\n;\n' >"$out/wide.sm"
run 3 sheet "$out/wide.sm" --form card
one_line "wide.sm chart 0 is doubtful: line 2 has \`0\` behind its 4 cells" "a chart among others"
[ "$(head -n 1 "$out/stdout")" = "chart 1 pump-single" ] || failed "the chart after a doubtful one is not there"
passed=$((passed + 1))

# Several files: in their order, and the worst status is the run's.
run 2 sheet "$out/two-charts.sm" no/such/file "$sm" --form card
one_line "cannot read no/such/file" "several files"
[ "$(grep -c '^chart ' "$out/stdout")" -eq 5 ] || failed "the other files are not there"
run 3 sheet "$out/doubtful" no/such/file "$chart" --lanes 4 --form card
diff "$out/stdout" examples/first-steps.sheet.txt
run 2 dropped "$out/two-charts.sm" no/such/file "$sm"
one_line "cannot read no/such/file" "several files"
[ "$(grep -c '^no hold came to nothing$' "$out/stdout")" -eq 4 ] || failed "the lists of the other files are not there"
run 0 charts "$out/two-charts.sm" "$sm" "$out/two-charts.sm"
[ "$(grep -c ' charts, ' "$out/stdout")" -eq 3 ] || failed "a file is not listed"
passed=$((passed + 4))

# Outputs that are full or closed: status 2 and one line, and no sheet is taken for whole.
echo 3 >"$out/three"
for words in "charts $sm" "sheet $sm" "sheet $sm --form json" "dropped $sm" "dropped $sm --form json" "diff $sm $sm" "rig $sm --chart 0 --notes $out/n --beats $out/b" "write $out/empty $out/three --lanes 4" "trace $sm $out/empty --chart 0" "trace $sm $out/empty --chart 0 --form json" --help; do
    : >"$out/stdout"
    status=0
    # The words have no blanks in them.
    "$padcheck" $words >/dev/full 2>"$out/stderr" || status=$?
    [ "$status" -eq 2 ] || failed "padcheck $words >/dev/full: status $status"
    one_line "cannot write the output: No space left on device" "$words >/dev/full"
    status=0
    "$padcheck" $words >&- 2>"$out/stderr" || status=$?
    [ "$status" -eq 2 ] || failed "padcheck $words >&-: status $status"
    one_line "cannot write the output: it is closed" "$words >&-"
done
# Nothing is said of the rig's files before both stand.
[ -s "$out/n" ] && [ -s "$out/b" ] || failed "rig's files, its output full"
rm "$out/n" "$out/b"
yes 1000 | sed '192~192 s/$/\n,/' | head -c 999518 >"$out/long"
{
    status=0
    "$padcheck" sheet "$out/long" --lanes 4 --form card 2>"$out/stderr" || status=$?
    echo "$status" >"$out/status"
} | head -n 1 >"$out/stdout"
[ "$(cat "$out/status")" -eq 2 ] || failed "a closed pipe: status $(cat "$out/status")"
one_line "cannot write the output: Broken pipe" "into a closed pipe"
