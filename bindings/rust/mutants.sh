#!/bin/sh
# Shows that the binding's tests notice a wrong refusal: each number and each word of src/refusal.rs is changed alone, and its tests must fail.
# The last line is 'N passed, M failed'.
set -eu
cd "$(dirname "$0")"
. ../../tests/need.sh
need "the binding is built with it" rustc
out=../../target/cargo/mutants
rm -rf "$out"
mkdir -p "$out"
source=src/refusal.rs

awk '
/^#\[cfg\(test\)\]/ { exit }
/^    [A-Z][A-Za-z]+ = [0-9]+,$/ { print NR "s/= [0-9]*/= " ($3 + 100) "/" }
/^        Self::[A-Za-z]+,$/ { print NR "s/Self::.*,/Self::" (/BadRecord/ ? "NoRecord" : "BadRecord") ",/" }
/^            .*Self::[A-Za-z]+ => "/ { print NR "s/=> \"/=> \"x/"; print NR "s/\",$/x\",/" }
/^                "[^"]*"$/ { print NR "s/\"/\"x/"; print NR "s/\"$/x\"/" }
/"refused \{number\}: / { print NR "s/refused/Refused/"; print NR "s/: {words}/; {words}/"; print NR "s/, by/ by/" }
' "$source" >"$out/edits"

# Whether the tests of the copy fail to build or to pass. They read the library's source from the package's folder.
export CARGO_MANIFEST_DIR="$PWD"
notices() {
    ! rustc --edition 2024 -A warnings --test -o "$out/check" "$out/refusal.rs" >"$out/log" 2>&1 ||
        ! "$out/check" >"$out/log" 2>&1
}

passed=0
failed=0
cp "$source" "$out/refusal.rs"
if notices; then
    failed=1
    echo "failed: the binding as it is does not pass"
else
    passed=1
fi
while read -r command; do
    sed "$command" "$source" >"$out/refusal.rs"
    if cmp -s "$source" "$out/refusal.rs"; then
        failed=$((failed + 1))
        echo "failed: the edit changes nothing: $command"
    elif notices; then
        passed=$((passed + 1))
    else
        failed=$((failed + 1))
        echo "failed: not noticed: $command"
    fi
done <"$out/edits"
rm -rf "$out"
echo "$passed passed, $failed failed"
[ "$failed" = 0 ]
