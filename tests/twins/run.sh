#!/bin/sh
# Shows that the must-fail edits are refused for what they mean. Each edit crates/CRATE/must-fail/NAME.edit has a twin, tests/twins/CRATE/NAME.twin:
# a change of the same lines, of the same form, that means the same as before. The prover must accept it. Where it does not, the edit may be
# refused for its form alone, and shows nothing. What the same form is, and which twins have another, `applies.sh` says and looks at.
# `sh tests/twins/run.sh [CRATE..]` tries those of the crates named, or of all, on a copy of the repository. The twins of a crate are tried
# together, those that change the same text in turn, and in halves where they are refused together. The last line is 'N passed, M failed'.
set -eu
cd "$(dirname "$0")/../.."
. tests/need.sh
need "the twins need it" rt awk
passed=0
failed=0
room=$(mktemp -d)
trap 'rm -rf "$room"' EXIT
trap 'exit 1' INT TERM

# A crate of the copy as it is here.
copy() {
    mkdir -p "$room/crates/$1"
    for part in src specs proofs; do
        rm -rf "$room/crates/$1/$part"
        if [ -d "crates/$1/$part" ]; then cp -R "crates/$1/$part" "$room/crates/$1/$part"; fi
    done
}

# Applies a twin to its crate of the copy, whole or not at all: each old text must stand there once.
apply() {
    rm -rf "$room/new"
    mkdir "$room/new"
    awk -v from="$room/crates/$1" -v to="$room/new" '
        function after(word) { return substr($0, length(word) + 1) }
        index($0, "file: ") == 1 {
            file = after("file: ")
            if (!(file in text)) {
                text[file] = ""
                while ((getline line < (from "/" file)) > 0) text[file] = text[file] line "\n"
            }
        }
        index($0, "old: ") == 1 { old = after("old: ") }
        index($0, "new: ") == 1 {
            at = index(text[file], old)
            rest = substr(text[file], at + length(old))
            if (!at || index(rest, old)) exit bad = 1
            text[file] = substr(text[file], 1, at - 1) after("new: ") rest
            pairs++
        }
        END {
            if (bad || !pairs) exit 1
            for (file in text) {
                place = file
                gsub("/", "\n", place)
                printf "%s", text[file] > (to "/" place)
                print file
            }
        }' "tests/twins/$1/$2.twin" >"$room/files" || return 1
    while read -r file; do
        mv "$room/new/$(printf '%s' "$file" | tr / '\n')" "$room/crates/$1/$file"
    done <"$room/files"
}

is_proved() {
    (cd "$room/crates/$1" && rt check) >"$room/log" 2>&1
}

told() {
    if [ "$3" = proved ]; then passed=$((passed + 1)); else failed=$((failed + 1)); fi
    echo "$1/$2: $3"
}

# Tries some twins together, what cannot be applied beside them after them, and where they are refused each half of them.
try() {
    groups="$2
"
    while [ -n "$groups" ]; do
        group=${groups%%"
"*}
        groups=${groups#*"
"}
        copy "$1"
        on='' left='' count=0
        for twin in $group; do
            if apply "$1" "$twin"; then
                on="$on $twin" count=$((count + 1))
            elif [ -z "$on" ]; then
                told "$1" "$twin" "NOT APPLIED (each old text must stand once in its file)"
            else
                left="$left $twin"
            fi
        done
        if [ -n "$left" ]; then
            groups="$left
$groups"
        fi
        if [ "$count" = 0 ]; then
            continue
        elif is_proved "$1"; then
            for twin in $on; do told "$1" "$twin" proved; done
        elif [ "$count" = 1 ]; then
            grep -E '^error|: error' "$room/log" | head -n 5
            told "$1" "${on# }" "REFUSED (twin)"
        else
            first='' second='' at=0
            for twin in $on; do
                at=$((at + 1))
                if [ $((2 * at)) -le "$count" ]; then first="$first $twin"; else second="$second $twin"; fi
            done
            groups="$first
$second
$groups"
        fi
    done
}

cp crates.txt "$room"
if [ -f HANDLES ]; then cp HANDLES "$room"; fi
for folder in crates/*/; do copy "$(basename "$folder")"; done
if [ $# = 0 ]; then set -- $(ls tests/twins crates | sort -u | grep -v -e : -e '[.]sh$'); fi
for crate; do
    twins=''
    for edit in "crates/$crate/must-fail"/*.edit; do
        name=$(basename "$edit" .edit)
        if [ -f "$edit" ] && [ ! -f "tests/twins/$crate/$name.twin" ]; then told "$crate" "$name" "NO TWIN"; fi
    done
    for twin in "tests/twins/$crate"/*.twin; do
        name=$(basename "$twin" .twin)
        if [ ! -f "$twin" ]; then
            continue
        elif [ -f "crates/$crate/must-fail/$name.edit" ]; then
            twins="$twins $name"
        else
            told "$crate" "$name" "NO EDIT"
        fi
    done
    if [ -n "$twins" ]; then try "$crate" "$twins"; fi
    copy "$crate"
done
echo "$passed passed, $failed failed"
[ "$failed" = 0 ]
