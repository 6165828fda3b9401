# To be sourced by test.sh: files of the greatest length, what rig leaves behind, and the way round with write.

# 16,777,215 bytes are 3,355,443 rows of 4 lanes, a tap each; one byte more is refused.
yes 1000 | head -c 16777215 >"$out/longest"
run 0 sheet "$out/longest" --lanes 4 --form card
printf 'measures 1\nrows 3355443\narrows 3355443\nsteps 3355443\nkeys 0\nnotes 3355443\nlast 192\nm 0 3355443 1\n' >"$out/wanted"
head -n 8 "$out/stdout" | diff "$out/wanted" - || failed "the longest text"
awk 'NR > 8 && $0 != "n " NR - 9 " 0 0 -" { exit 1 } END { if (NR != 3355451) exit 1 }' "$out/stdout" ||
    failed "the notes of the longest text"
printf '\n' >>"$out/longest"
printed 1 "refused 1: the text or file, or the text to be written, is longer" sheet "$out/longest" --lanes 4
printed 1 "refused 1: the text or file, or the text to be written, is longer" diff "$out/longest" "$out/longest" --lanes 4
{
    printf '#NOTES:dance-single:::::\n'
    yes 0001 | head -c 16777185
    printf ';\n\n\n\n'
} >"$out/longest"
[ "$(wc -c <"$out/longest")" -eq 16777215 ] || failed "the longest SM file has another length"
noted 0 "rows          3355437" "measure 0 on line 2 has 3355437 rows, which do not divide 192" sheet "$out/longest"
printed 0 "16777187" charts "$out/longest"
passed=$((passed + 1))
rm "$out/longest" "$out/stdout"

# Writes chart 0 of the example into the folder, which then holds both files and no other.
folder=$out/rig
mkdir "$folder"
rig_files() {
    ls -A "$folder" | tr '\n' ' '
}
printed 0 "notes.bin: 18 note records, 180 bytes" rig "$sm" --chart 0 --notes "$folder/notes.bin" --beats "$folder/beats.bin"
[ "$(rig_files)" = "beats.bin notes.bin " ] || failed "rig leaves $(rig_files)"
od -A n -v -t u1 -w10 "$folder/notes.bin" | diff "$tests/stored/rig.notes" - || failed "the note records"
od -A n -v -t f4 -w16 "$folder/beats.bin" | diff "$tests/stored/rig.beats" - || failed "the row beats"
passed=$((passed + 2))

# A second run takes their place; bare data with the same notes gives the same bytes.
cp "$folder/notes.bin" "$out/notes.bin"
printed 0 "beats.bin: 20 row beats, 80 bytes" rig "$chart" --lanes 4 --notes "$folder/notes.bin" --beats "$folder/beats.bin"
cmp "$out/notes.bin" "$folder/notes.bin"
passed=$((passed + 1))

# Names of 255 bytes, the most that a file has, are taken; one of 256 is not, and nothing is written.
mkdir "$out/long_names"
notes=$out/long_names/$(printf '%0255d' 1) beats=$out/long_names/$(printf '%0255d' 2)
told 2 "File name too long" rig "$sm" --chart 0 --notes "$notes" --beats "${beats}0"
[ -z "$(ls -A "$out/long_names")" ] || failed "rig leaves a file beside a name that is too long"
for time in first second; do
    run 0 rig "$sm" --chart 0 --notes "$notes" --beats "$beats"
    cmp "$out/notes.bin" "$notes"
    cmp "$folder/beats.bin" "$beats"
    [ "$(ls -A "$out/long_names" | wc -l)" -eq 2 ] || failed "rig leaves a third file the $time time"
done
passed=$((passed + 2))

# Where it fails, both files are as they were and no other is left.
unchanged() {
    told "$@" --notes "$notes" --beats "$beats"
    [ "$(rig_files)" = "beats.bin notes.bin " ] || failed "rig leaves $(rig_files)"
    cmp "$out/notes.bin" "$folder/notes.bin" || failed "rig changed a file"
}
notes=$folder/notes.bin beats=$folder/beats.bin
unchanged 1 "chart 1 refused 10" rig "$sm" --chart 1
unchanged 1 "refused 11" rig "$sm" --chart 3
unchanged 3 "its first byte is #" rig "$sm" --lanes 4
unchanged 2 "cannot read no/such/file" rig no/such/file --chart 0
beats=$folder/no/beats.bin
unchanged 2 "cannot write $beats: No such file" rig "$sm" --chart 2
beats=$folder
unchanged 2 "is not a plain file" rig "$sm" --chart 2
beats=/dev/full
unchanged 2 "/dev/full is not a plain file" rig "$sm" --chart 2
[ -c /dev/full ] || failed "rig took the place of a device"
beats=$folder/./notes.bin
unchanged 2 "--notes and --beats name the same file" rig "$sm" --chart 2
cp "$sm" "$out/input.sm"
beats=$out/input.sm
unchanged 2 "is the input" rig "$out/input.sm" --chart 2

beats=
unchanged 2 "--beats names no file" rig "$sm" --chart 2
beats=$folder/no/
unchanged 2 "--beats names no file" rig "$sm" --chart 2
beats=$folder/beats.bin

# Where the output is closed, nothing is written. Nothing is said before both files stand, so that where it is full they do.
for output in closed full; do
    : >"$out/stdout"
    status=0
    case $output in
    full) "$padcheck" rig "$sm" --chart 2 --notes "$notes" --beats "$beats" >/dev/full 2>"$out/stderr" || status=$? ;;
    closed) "$padcheck" rig "$sm" --chart 2 --notes "$notes" --beats "$beats" >&- 2>"$out/stderr" || status=$? ;;
    esac
    [ "$status" -eq 2 ] || failed "rig with its output $output: status $status"
    one_line "cannot write the output" "rig, its output $output"
    [ "$(rig_files)" = "beats.bin notes.bin " ] || failed "rig leaves $(rig_files)"
    case $output in
    full)
        run 0 rig "$sm" --chart 2 --notes "$out/told.notes" --beats "$out/told.beats"
        cmp "$out/told.notes" "$notes" && cmp "$out/told.beats" "$beats" || failed "the files of a run whose output is full"
        ;;
    closed) cmp "$out/notes.bin" "$notes" || failed "rig changed a file" ;;
    esac
done

# With --rows there are three files, and what is written for them reads as them, beside the oracle's text. Nothing is lost where a chart has neither
# K, m, l and f nor heads and tails that nothing pairs.
round=$out/round
mkdir "$round"
way_round() {
    chart_lanes=$1
    shift
    run 0 rig "$@" --notes "$round/notes" --beats "$round/beats" --rows "$round/rows"
    tail -n 1 "$out/stdout" | grep -qF "rows: $(wc -l <"$round/rows") row counts, $(wc -c <"$round/rows") bytes" || failed "rig does not tell of its rows"
    run 0 write "$round/notes" "$round/rows" --lanes "$chart_lanes"
    cp "$out/stdout" "$round/text"
    target/oracle/oracle write "$chart_lanes" "$round/rows" <"$round/notes" | cmp - "$round/text" || failed "the oracle writes another text"
    run 0 rig "$round/text" --lanes "$chart_lanes" --notes "$round/notes.2" --beats "$round/beats.2" --rows "$round/rows.2"
    for file in notes beats rows; do
        cmp "$round/$file" "$round/$file.2" || failed "$file of what was written"
    done
    passed=$((passed + 1))
}
way_round 4 "$sm" --chart 0
printf '4\n8\n4\n4\n' | diff - "$round/rows" || failed "the row counts"
way_round 8 "$sm" --chart 2
way_round 6 bindings/bench_command/tests/given/solo.sm --chart 0
way_round 4 "$chart" --lanes 4
printf '1000\n,\n,\n0001\n0000\n' >"$round/empty_measure"
way_round 4 "$round/empty_measure" --lanes 4
printf '1\n0\n1\n' | diff - "$round/rows" || failed "the counts of measures without rows"
passed=$((passed + 2))

# An edit of the notes is the edit of the text; each refusal is told in a line, and nothing is printed.
run 0 rig "$sm" --chart 2 --notes "$round/notes" --beats "$round/beats" --rows "$round/rows"
patched() {
    cp "$round/notes" "$round/edited"
    printf "$2" | dd of="$round/edited" bs=1 seek="$1" conv=notrunc status=none
}
patched 8 '\007'
run 0 write "$round/notes" "$round/rows" --lanes 8
sed '1s/10000000/00000001/' "$out/stdout" >"$round/text"
run 0 write "$round/edited" "$round/rows" --lanes 8
diff "$round/text" "$out/stdout" || failed "the edited chart"
passed=$((passed + 1))
refused() {
    told 1 "refused $1: " write "$round/edited" "$2" --lanes 8
}
patched 9 '\006'
refused 8 "$round/rows"
patched 8 '\010'
refused 13 "$round/rows"
patched 0 '\002'
refused 13 "$round/rows"
cp "$round/notes" "$round/edited"
: >"$round/none"
refused 15 "$round/none"
echo 4294967295 >"$round/many"
refused 1 "$round/many"
printf 0 >>"$round/edited"
refused 7 "$round/rows"
# A tap at the row and column of the roll's tail, of which the fifth note is the head.
printf '\006\0\0\0\377\377\377\377\002\0' >"$round/tap"
{ head -c 60 "$round/notes"; cat "$round/tap"; } >"$round/edited"
refused 14 "$round/rows"

# 16,777,215 bytes are written, and no byte more; the longest list of counts has an empty measure for each line.
echo 3355443 >"$round/longest"
run 0 write "$out/empty" "$round/longest" --lanes 4
[ "$(wc -c <"$out/stdout")" -eq 16777215 ] || failed "the longest text that is written"
printf '3355441\n1\n0\n0\n' >"$round/longest"
told 1 "refused 1: the text or file, or the text to be written, is longer" write "$out/empty" "$round/longest" --lanes 4
yes 0 | head -n 8388608 >"$round/longest"
run 0 write "$out/empty" "$round/longest" --lanes 5
[ "$(wc -c <"$out/stdout")" -eq 16777214 ] || failed "the text of the most measures"
echo 0 >>"$round/longest"
told 1 "refused 1: " write "$out/empty" "$round/longest" --lanes 5
rm "$round/longest" "$out/stdout"
passed=$((passed + 2))
