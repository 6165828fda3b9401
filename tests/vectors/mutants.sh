#!/bin/sh
# Shows that each rule is decided by the stored text or file that README.md names for it: each change of mutants.txt goes into a copy of the Rust,
# or of the reference for SM files, and the copy must answer that text differently. Takes some twenty minutes; 'mutants.sh TEXT' runs those of
# one text. Ends with 'N passed, M failed'.
set -u
only=${1-}
cd "$(dirname "$0")/../.."
. tests/need.sh
need "the oracle is built with it" rustc
copy=target/vectors/mutant
passed=0
failed=0

# Numbers wrap as in the oracle, which is built with optimisation.
build() {
    rustc --edition 2024 -C overflow-checks=off -A warnings "$@"
}

while IFS='|' read -r text file edit; do
    case $text in '#'* | '') continue ;; esac
    if [ -n "$only" ] && [ "$only" != "$text" ]; then
        continue
    fi
    case $file in
    */sm.rs) sample=crates/replay_files/stdin ;;
    *) sample=crates/replay_charts/stdin ;;
    esac
    rm -rf "$copy"
    mkdir -p "$copy/docs" "$copy/tests"
    cp -R docs/src "$copy/docs/src"
    cp -R tests/oracle "$copy/tests/oracle"
    sed "$edit" "$file" >"$copy/$file"
    if cmp -s "$file" "$copy/$file"; then
        said="the edit changes nothing"
    elif ! build --crate-type rlib --crate-name oracle -o "$copy/liboracle.rlib" "$copy/tests/oracle/oracle.rs" ||
        ! build --extern oracle="$copy/liboracle.rlib" -o "$copy/oracle" "$copy/tests/oracle/main.rs"; then
        said="the copy does not build"
    elif ! "$copy/oracle" differing "$sample" >"$copy/out"; then
        said="the copy does not run to its end"
    elif grep -qxE "[0-9]+ $text" "$copy/out"; then
        passed=$((passed + 1))
        continue
    else
        said="not told by this text"
    fi
    failed=$((failed + 1))
    echo "failed: $text: $said: $edit"
done <tests/vectors/mutants.txt
rm -rf "$copy"
echo "$passed passed, $failed failed"
[ "$failed" = 0 ]
