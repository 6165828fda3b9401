# To be sourced by test.sh: files as editors and packs have them, each with what is said of it, and beside what is wrong a neighbour that is not.
# The files are in tests/given, what is said in tests/stored.
given=bindings/bench_command/tests/given

# All that it prints and then says on standard error is the file tests/stored/NAME.
answered() {
    want=$1 name=$2
    shift 2
    run "$want" "$@"
    cat "$out/stdout" "$out/stderr" | diff "$tests/stored/$name" - || failed "padcheck $*: not what is stored in $name"
    passed=$((passed + 1))
}

# Doubtful note data: every word that reads the data says so in the same words, which do not name --force, `charts` lists the chart
# with them, --force takes it and says so, and the neighbour is not doubtful.
doubtful_line() {
    answered 3 "wrong.$1" sheet "$given/$1.sm" --form card
    said=$(cat "$out/stderr") why=$(sed 's/^.* is doubtful: //' "$out/stderr")
    case $said in *--force*) failed "the doubt of $1 names --force" ;; esac
    told 3 "$said" rig "$given/$1.sm" --chart 0 --notes "$out/n" --beats "$out/b"
    told 3 "$said" dropped "$given/$1.sm"
    told 3 "$said" trace "$given/$1.sm" "$out/empty"
    run 3 diff "$given/$1.sm" "$given/$2.sm"
    one_line "$said" "diff of $1"
    run 3 charts "$given/$1.sm"
    grep -qxF "       doubtful: $why" "$out/stdout" || failed "charts of $1: not its doubt"
    grep -qxF "$given/$1.sm: 1 chart, 0 refused, 1 doubtful" "$out/stdout" || failed "charts of $1"
    [ ! -s "$out/stderr" ] || failed "charts of $1: standard error is not empty"
    run 0 charts "$given/$1.sm" --force
    grep -qxF "       forced: $why" "$out/stdout" || failed "charts of $1 --force: not its doubt"
    run 0 sheet "$given/$1.sm" --form card --force
    grep -qxF "forced: $why" "$out/stdout" || failed "sheet of $1 --force: not its doubt"
    answered 0 "wrong.$2" sheet "$given/$2.sm" --form card
    printed 0 ": 1 chart, 0 refused" charts "$given/$2.sm"
    passed=$((passed + 3))
}
doubtful_line colon colon-comment
doubtful_line keysounds letters
doubtful_line return letters
doubtful_line short blank-lines
doubtful_line blanks blank-lines
doubtful_line short-first blank-lines
doubtful_line short-last blank-lines
doubtful_line long-row chart
doubtful_line comma-behind comma-own
doubtful_line comma-row comma-own
doubtful_line comment-row comment-quiet
doubtful_line comment-comma comment-quiet
doubtful_line comment-last comment-quiet
doubtful_line semicolon-rest semicolon-comment
doubtful_line rows-below tags-below
answered 0 wrong.semicolon-behind sheet "$given/semicolon-behind.sm" --form card

# A file that may have a chart which is not read is doubtful whichever chart is asked for, since numbers shift. Its list is whole.
doubtful_file() {
    answered 3 "wrong.$1" charts "$given/$1.sm"
    why=$(sed -n 's/^doubtful: //p' "$out/stdout")
    [ -n "$why" ] || failed "charts of $1: no doubt"
    case $why in *--force*) failed "the doubt of $1 names --force" ;; esac
    said="padcheck: $given/$1.sm is doubtful: $why"
    for words in "sheet $given/$1.sm" "sheet $given/$1.sm --chart 0" "dropped $given/$1.sm --form json" \
        "rig $given/$1.sm --chart 0 --notes $out/n --beats $out/b" "trace $given/$1.sm $out/empty --chart 0"; do
        # The words have no blanks in them.
        told 3 "$said" $words
        [ "$(cat "$out/stderr")" = "$said" ] || failed "padcheck $words: not '$said'"
    done
    run 3 diff "$given/$1.sm" "$given/$2.sm"
    one_line "$said" "diff of $1"
    answered 0 "wrong.$1.force" charts "$given/$1.sm" --force
    answered 0 "wrong.$2.charts" charts "$given/$2.sm"
}
doubtful_file some-letters three
doubtful_file notes2 three
doubtful_file semicolon-tag three
doubtful_file no-semicolon three
doubtful_file lights-no-semicolon three
doubtful_file marked-chart marked

# Elsewhere a byte-order mark harms nothing.
answered 0 wrong.marked sheet "$given/marked.sm" --form card
answered 0 wrong.marked.force charts "$given/marked.sm" --force
answered 0 wrong.marked.neighbour charts "$given/chart.sm"

# A chart that is not there is refused before a doubt is told.
answered 1 wrong.some-letters.number sheet "$given/some-letters.sm" --chart 1 --form card
answered 1 wrong.no-semicolon.number sheet "$given/no-semicolon.sm" --chart 2 --form card

# What is taken all the same says so: above the line to initial, in JSON, in the line that `rig` prints, for a file and for a chart.
answered 0 wrong.forced.print sheet "$given/comma-behind.sm" --force
awk 'length > 80 { exit 1 }' "$out/stdout" || failed "a forced sheet has a line of more than 80 columns"
answered 0 wrong.forced.card sheet "$given/notes2.sm" "$given/comma-behind.sm" --form card --force
answered 0 wrong.forced.json sheet "$given/notes2.sm" "$given/comma-behind.sm" --form json --force
answered 0 wrong.forced.dropped dropped "$given/long-row.sm" --force
answered 0 wrong.forced.dropped.json dropped "$given/long-row.sm" --force --form json
answered 0 wrong.forced.diff diff "$given/notes2.sm" "$given/comma-behind.sm" --chart 0 --force
printed 0 "dance-single, 4 lanes; forced: line 10 has \`0\` behind its 4 cells, where nothing" \
    rig "$given/long-row.sm" --chart 0 --notes "$out/n" --beats "$out/b" --force
printed 0 "dance-single, 4 lanes; forced: line 14 begins with #NOTES2:, which starts no chart" \
    rig "$given/notes2.sm" --chart 0 --notes "$out/n" --beats "$out/b" --force
rm "$out/n" "$out/b"
# Where there is nothing to force, --force changes nothing.
for form in print card json; do
    run 0 sheet "$given/three.sm" --form "$form"
    mv "$out/stdout" "$out/unforced"
    run 0 sheet "$given/three.sm" --form "$form" --force
    cmp "$out/unforced" "$out/stdout" || failed "--force on a file without doubt"
    passed=$((passed + 1))
done

# Files as editors write them are quiet: with both line ends, measures numbered in comments, a last comma, keysounds, titles in UTF-8.
for editor in stepmania stepmania-crlf arrowvortex; do
    answered 0 "wrong.$editor" sheet "$given/$editor.sm" --form card
    printed 0 "2 charts, 0 refused" charts "$given/$editor.sm"
done
diff "$tests/stored/wrong.stepmania" "$tests/stored/wrong.stepmania-crlf" || failed "line ends"

# A measure whose rows do not divide 192 is no doubt: one line for each chart that has one.
noted 0 "total_arrows        3" "padcheck: $given/odd.sm chart 0: measure 1 on line 15 has 5 rows, which do not divide 192, as where a row is lost or doubled; 2 such measures" \
    sheet "$given/odd.sm"
odd=$(cat "$out/stderr")
noted 0 "no hold came to nothing" "$odd" dropped "$given/odd.sm"
noted 0 "row beats" "$odd" rig "$given/odd.sm" --chart 0 --notes "$out/n" --beats "$out/b"
run 0 diff "$given/odd.sm" "$given/odd.sm"
[ "$(grep -cxF "$odd" "$out/stderr")" -eq 2 ] || failed "diff of odd.sm"
printed 0 ": 1 chart, 0 refused" charts "$given/odd.sm"
rm "$out/n" "$out/b"

# A chart that is refused among others, and where none is left.
answered 0 wrong.lights.charts charts "$given/chart-lights.sm"
answered 0 wrong.lights.sheet sheet "$given/chart-lights.sm"
answered 1 wrong.lights.number sheet "$given/chart-lights.sm" --chart 1
answered 0 wrong.lights.only.charts charts "$given/lights.sm"
answered 1 wrong.lights.only sheet "$given/lights.sm"
answered 0 wrong.lights.json sheet "$given/chart-lights.sm" --form json
answered 0 wrong.few sheet "$given/few.sm" --form json
answered 0 wrong.type.charts charts "$given/type.sm"
answered 0 wrong.type sheet "$given/type.sm"
answered 1 wrong.diff.old diff "$given/chart-lights.sm" "$given/chart.sm"
answered 1 wrong.diff.new diff "$given/chart.sm" "$given/chart-lights.sm"
answered 1 wrong.diff.both diff "$given/chart-lights.sm" "$given/chart-lights.sm"

# Files that are no SM files with charts.
for word in charts sheet; do
    answered 1 "wrong.ssc.$word" "$word" "$given/song.ssc"
    answered 1 "wrong.letters.$word" "$word" "$given/other-letters.sm"
    answered 1 "wrong.bare.$word" "$word" "$chart"
done
answered 1 wrong.ssc.number sheet "$given/song.ssc" --chart 0 --form json
answered 1 wrong.ssc.number trace "$given/song.ssc" "$out/empty" --chart 0 --form json
told 1 "song.ssc refused 9: the block has fewer than five fields, by whoever writes the SM file; it is an SSC file, which is not read: line 7 begins with #NOTEDATA:" \
    rig "$given/song.ssc" --chart 0 --notes "$out/n" --beats "$out/b"

# A file that is too long has no length and no checksum.
answered 1 wrong.long sheet /dev/zero
answered 1 wrong.long.json sheet /dev/zero --form json
answered 1 wrong.long.diff diff /dev/zero "$sm"

# Densities of 1,000 and more stay within 80 columns, and the figures are the library's but for the line that is broken.
{
    yes 1000 | head -n 15360 | sed '0~1024 a ,'
    yes 0100 | head -n 1024
} >"$out/dense"
run 0 sheet "$out/dense" --lanes 4
awk 'length > 80 { exit 1 }' "$out/stdout" || failed "a line of densities has more than 80 columns"
sed '1,/^densities/d; /^$/,$d' "$out/stdout" | diff "$tests/stored/wrong.dense" - || failed "densities of 1,024"
passed=$((passed + 2))

# A processor without SSE4.2 and POPCNT, where the kernel lets `cpuid` answer so. --version makes no call of the library.
cc -shared -fPIC -o "$out/old_processor.so" "$tests/old_processor.c"
cat >"$out/old_padcheck" <<END
#!/bin/sh
LD_PRELOAD=$out/old_processor.so exec $padcheck "\$@"
END
chmod +x "$out/old_padcheck"
new_padcheck=$padcheck padcheck=$out/old_padcheck
status=0
"$padcheck" --version >"$out/stdout" 2>"$out/stderr" || status=$?
if [ "$status" -eq 77 ]; then
    echo "not tried: an old processor, since this kernel has no answer of its own for cpuid"
else
    [ "$status" -eq 0 ] || failed "the version on an old processor: status $status"
    lacks="padcheck: this processor is no x86-64-v2, for which the library is compiled: it has no SSE4.2, POPCNT"
    told 2 "$lacks" charts "$sm"
    told 2 "$lacks" sheet "$sm"
    told 2 "$lacks" dropped "$sm"
    told 2 "$lacks" trace "$sm" "$out/empty" --chart 0
    told 2 "$lacks" rig "$sm" --chart 0 --notes "$out/n" --beats "$out/b"
    told 2 "$lacks" diff "$sm" "$sm"
fi
padcheck=$new_padcheck
[ ! -e "$out/n" ] && [ ! -e "$out/b" ] || failed "rig wrote a file"
