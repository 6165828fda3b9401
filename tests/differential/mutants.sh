#!/bin/sh
# Shows that the differential run can fail: each wrong change of mutants.txt goes into a copy of the Rust, and the run must notice it.
# Wants target/staticlib and target/differential as build.sh leaves them; takes some minutes. 'mutants.sh CHECK' runs those of one check.
# Ends with 'N passed, M failed'.
set -u
only=${1-}
cd "$(dirname "$0")/../.."
copy=target/differential/mutant
passed=0
failed=0
while IFS='|' read -r check file edit; do
    case $check in '#'* | '') continue ;; esac
    if [ -n "$only" ] && [ "$only" != "$check" ]; then
        continue
    fi
    rm -rf "$copy"
    mkdir -p "$copy/docs" "$copy/tests"
    cp -R docs/src "$copy/docs/src"
    cp -R tests/oracle "$copy/tests/oracle"
    cp -R tests/vectors "$copy/tests/vectors"
    sed "$edit" "$file" >"$copy/$file"
    if cmp -s "$file" "$copy/$file"; then
        said="the edit changes nothing"
    elif ! rustc --edition 2024 -C opt-level=1 -A warnings --crate-type rlib --crate-name oracle \
        -o "$copy/liboracle.rlib" "$copy/tests/oracle/oracle.rs" ||
        ! rustc --edition 2024 -C opt-level=1 -A warnings --extern oracle="$copy/liboracle.rlib" \
            --extern padcheck=target/differential/libpadcheck.rlib -L native=target/staticlib -l static=padcheck -l static=leaves \
            -o "$copy/differential" tests/differential/main.rs; then
        said="the copy does not build"
    elif "$copy/differential" --cases 20000 >"$copy/out" 2>&1; then
        said="not noticed"
    elif grep -qF "differs: $check: " "$copy/out"; then
        passed=$((passed + 1))
        continue
    else
        said="noticed, but not by this check"
    fi
    failed=$((failed + 1))
    echo "failed: $check: $said: $edit"
done <tests/differential/mutants.txt
rm -rf "$copy"
echo "$passed passed, $failed failed"
[ "$failed" = 0 ]
