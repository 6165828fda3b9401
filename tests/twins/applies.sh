#!/bin/sh
# Shows in a second, with no proof, that each must-fail edit and each twin (`run.sh`) can be applied, that none is without the other, and that
# each twin has its edit's form. Each old text must stand exactly once in its file, the pairs before it applied: so no line that an edit or a twin
# quotes is changed unseen. Of its edit's form is a twin that names the same files and old texts in the same order, each with a new text of as many
# statements and blocks: as many `let`, `;` and `{`, those in strings and brackets aside, and a value that a `let` names for itself alone counted
# as the value. One that cannot have it says why in a comment, its first line. The gate begins with it, since proofs would find an edit that cannot
# be applied late, and no twin.
# `sh tests/twins/applies.sh [CRATE..]` looks at the crates named, or at all. The last line is 'N passed, M failed'.
set -eu
cd "$(dirname "$0")/../.."
. tests/need.sh
need "the edits need it" awk
if [ $# = 0 ]; then set -- $(ls crates tests/twins | sort -u | grep -v -e : -e '[.]sh$'); fi
changes=''
for crate; do
    for change in "crates/$crate/must-fail"/*.edit "tests/twins/$crate"/*.twin; do
        if [ -f "$change" ]; then changes="$changes $change"; fi
    done
done
if [ -z "$changes" ]; then
    echo "0 passed, 0 failed"
    exit
fi
awk '
    function after(word) { return substr($0, length(word) + 1) }
    function wrong(why) {
        print change ": " why
        bad = 1
    }
    # How many statements and blocks a new text has. The `;` of an array or a string ends no statement, and a value with a name is a value.
    function shape(text) {
        gsub(/"[^"]*"/, "", text)
        while (gsub(/\[[^][]*\]/, "", text)) continue
        gsub(/[{] let [a-z_]+ = [^;{}]*; [^;{}]* [}]/, "", text)
        gsub(/let [^=]+ = .* in /, "", text)
        return gsub(/(^|[^A-Za-z0-9_])let /, "", text) " " gsub(/;/, "", text) " " gsub(/[{]/, "", text)
    }
    # What the file before this line leaves to say, and its count.
    function done() {
        if (change == "") return
        if (!pairs || open) wrong("old and new texts do not come in pairs")
        if (bad) failed++; else passed++
    }
    FNR == 1 {
        done()
        change = FILENAME
        bad = pairs = open = 0
        file = ""
        split("", text)
        split(FILENAME, part, "/")
        edit = part[1] == "crates"
        crate = edit ? part[2] : part[3]
        name = part[4]
        sub(/[.][a-z]+$/, "", name)
        both = crate "/" name
        if (edit) edits[both]; else twins[both]
        if (!edit && $0 ~ /^# ./) other[both]
    }
    index($0, "file: ") == 1 {
        file = after("file: ")
        if (!(file in text)) {
            text[file] = ""
            path = "crates/" crate "/" file
            while ((getline line < path) > 0) text[file] = text[file] line "\n"
            close(path)
        }
    }
    index($0, "old: ") == 1 {
        old = after("old: ")
        open++
    }
    index($0, "new: ") == 1 {
        open--
        pairs++
        if (edit) form[both] = form[both] file "\n" old "\n" shape(after("new: ")) "\n"
        else twin_form[both] = twin_form[both] file "\n" old "\n" shape(after("new: ")) "\n"
        at = index(text[file], old)
        rest = substr(text[file], at + length(old))
        if (!at) wrong("not in " file ": " old)
        else if (index(rest, old)) wrong("more than once in " file ": " old)
        else text[file] = substr(text[file], 1, at - 1) after("new: ") rest
    }
    END {
        done()
        for (name in edits) if (!(name in twins)) { print name ": no twin"; failed++ }
        for (name in twins) {
            if (!(name in edits)) { print name ": no edit"; failed++ }
            else if (form[name] == twin_form[name]) same++
            else if (!(name in other)) { print name ": the twin has not the form of its edit, and does not say why"; failed++ }
        }
        print same + 0 " twins of their edit\047s form, " length(other) " that say why not"
        print passed + 0 " passed, " failed + 0 " failed"
        exit failed > 0
    }' $changes
