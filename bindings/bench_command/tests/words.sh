# To be sourced by test.sh: each word on the examples, beside stored output and beside the page.
chart=examples/first-steps.txt
sm=examples/first-steps.sm
changed=bindings/bench_command/tests/changed.sm

stored 0 charts charts "$sm"
stored 0 sheet.print sheet "$sm"
stored 0 sheet.print sheet --form print "$sm"
stored 0 sheet.lanes sheet "$chart" --lanes 4
stored 0 sheet.chart sheet "$sm" --chart 2
stored 0 sheet.json sheet "$sm" --form json
stored 0 sheet.lanes.json sheet "$chart" --lanes=4 --form=json
stored 0 sheet.solo sheet bindings/bench_command/tests/given/solo.sm
holds=bindings/bench_command/tests/given/holds.sm
stored 0 dropped dropped "$sm" "$holds"
stored 0 dropped dropped "$sm" --form print "$holds"
stored 0 dropped.json dropped "$sm" "$holds" --form json
stored 0 dropped.lanes dropped "$chart" --lanes 4
stored 0 dropped.chart dropped "$holds" --chart=0 --form=json
stored 1 diff diff "$sm" "$changed"
stored 0 diff.chart diff "$sm" "$changed" --chart 0
stored 0 diff.lanes diff "$chart" "$chart" --lanes 4
stored 0 charts.two charts "$sm" "$changed"
run 0 sheet "$sm" --form card
diff "$out/stdout" examples/first-steps.sm.sheet.txt
run 0 sheet "$chart" --lanes 4 --form card
diff "$out/stdout" examples/first-steps.sheet.txt
passed=$((passed + 2))

# The checksum is the one that cksum prints.
for file in "$sm" "$changed" docs/CALLS.md include/padcheck.h; do
    run 0 diff "$file" "$file" --lanes 4 --force
    sum=$(cksum <"$file")
    grep -qxF "old $file: length ${sum#* }, cksum ${sum% *}" "$out/stdout" || failed "cksum of $file is $sum"
    passed=$((passed + 1))
done

# A file that ends its lines with bytes 13 and 10 has the same figures.
sed 's/$/\r/' "$sm" >"$out/crlf.sm"
run 0 sheet "$out/crlf.sm" --form card
diff "$out/stdout" examples/first-steps.sm.sheet.txt
run 0 sheet "$out/crlf.sm" --form json
sed 's/.*"chart"/"chart"/' "$out/stdout" >"$out/crlf.json"
sed 's/.*"chart"/"chart"/' "$tests/stored/sheet.json" | diff - "$out/crlf.json"
passed=$((passed + 2))

# Its dropped heads are the same too; one of the four heads of that file has a note.
sed 's/$/\r/' "$holds" >"$out/crlf.sm"
run 0 dropped "$out/crlf.sm" --form json
sed 's/.*"chart"/"chart"/' "$out/stdout" >"$out/crlf.json"
sed 's/.*"chart"/"chart"/' "$tests/stored/dropped.chart" | diff - "$out/crlf.json"
run 0 sheet "$holds" --form card
[ "$(grep -c '^n [0-9]* [0-9]* [12] ' "$out/stdout")" -eq 1 ] || failed "the holds of $holds"
passed=$((passed + 2))

# Help and versions.
printed 0 "padcheck WORD ..." --help
printed 0 "padcheck charts FILE" charts --help
printed 0 "padcheck sheet FILE" sheet --help
printed 0 "padcheck dropped FILE" dropped --help
printed 0 "padcheck rig FILE" rig -h
printed 0 "padcheck write NOTES ROWS" write --help
printed 0 "padcheck trace FILE TRACE" trace --help
printed 0 "padcheck diff OLD NEW" diff a --help
printed 0 "kit $(rt version)" --version

# What the page shows is what is printed: each block that begins with `$ padcheck`, with standard error in its place.
awk -v out="$out/page" '
    /^    \$ padcheck / {
        count++
        wanted = out "." count ".wanted"
        print substr($0, 7) >(out "." count ".command")
        printf "" >wanted
        on = 1
        blanks = 0
        next
    }
    on && /^$/ { blanks++; next }
    on && /^    / {
        for (; blanks > 0; blanks--) print "" >wanted
        print substr($0, 5) >wanted
        next
    }
    { on = 0 }' docs/BENCH.md
ln -s ../../examples ../../bindings "$out"
for command in "$out"/page.*.command; do
    (cd "$out" && PATH="$(dirname "$padcheck"):$PATH" sh "$command") >"$out/stdout" 2>&1 || :
    diff "${command%.command}.wanted" "$out/stdout" || failed "docs/BENCH.md: $(cat "$command")"
    passed=$((passed + 1))
done
