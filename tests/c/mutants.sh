#!/bin/sh
# Shows that the C test notices a wrong header: each number, length and word of padcheck.h is changed alone, and the test must fail.
# A wrong number must be noticed twice, by the static assertions and, without them, by what the library answers.
# Each word of a declaration, here and in the Rust binding's table of calls, is changed alone too; there a parameter is left out besides, two
# change places, or one has another's type. prototypes.sh must fail.
# The library is taken from PADCHECK_LIB_DIR, else from target/staticlib. The last line is 'N passed, M failed'; takes a minute.
set -eu
cd "$(dirname "$0")/../.."
. tests/need.sh
need "the C test needs it" cc awk
lib=${PADCHECK_LIB_DIR:-target/staticlib}/libpadcheck.a
out=target/c/mutants
rm -rf "$out"
mkdir -p "$out/include"
header=include/padcheck.h

# The edits, a line each: what is changed, and the sed command.
awk '
function edit(what, command) { print what "|" NR command }
/^    PADCHECK_[A-Z0-9_]+ = [0-9]+/ {
    edit($1, "s/= " ($3 + 0) "/= " ($3 + 1) "/")
    if ($3 + 0 > 0) edit($1, "s/= " ($3 + 0) "/= " ($3 - 1) "/")
}
/^#define PADCHECK_[A-Z_]+ .*[0-9]/ {
    match($0, /[0-9]+\)?$/)
    number = substr($0, RSTART) + 0
    edit($2, sprintf("s/%.0f/%.0f/", number, number + 1))
    edit($2, sprintf("s/%.0f/%.0f/", number, number - 1))
}
/^        return "/ {
    edit("words", "s/return \"/return \"x/")
    edit("words", "s/\";$/x\";/")
}
/^    case PADCHECK_/ { edit($2, "s/case .*:/case 77:/") }
/^    return [^"]*;$/ || /^        bytes \+= / {
    rest = substr($0, 12)
    at = 0
    while (match(rest, /[0-9]+/)) {
        at++
        number = substr(rest, RSTART, RLENGTH)
        edit("length", "s/[0-9][0-9]*/" (number + 1) "/" at)
        rest = substr(rest, RSTART + RLENGTH)
    }
    if (/ \+ /) edit("length", "s/ + / - /")
    if (/ \* /) edit("length", "s/ \\* / + /")
    if (/ \/ /) edit("length", "s, / , * ,")
}
/return padcheck_beats_len/ { edit("length", "s/padcheck_beats_len(len, lanes)/padcheck_text_len(len)/") }
' "$header" >"$out/edits"

# Whether the test, built with these words, fails to build or to pass.
sh tests/c/definitions.sh >"$out/include/definitions.h"
cc -std=c11 -c -o "$out/checks.o" tests/c/checks.c
cc -std=c11 -c -o "$out/lent.o" tests/c/lent.c
cc -std=c11 -c -o "$out/header_main.o" tests/c/header_main.c
notices() {
    ! cc -std=c11 -I "$out/include" "$@" -o "$out/check" tests/c/header.c tests/c/calls.c "$out/checks.o" \
        "$out/lent.o" "$out/header_main.o" "$lib" >"$out/log" 2>&1 ||
        ! "$out/check" >"$out/log" 2>&1
}

passed=0
failed=0
said() {
    if [ "$1" = yes ]; then
        passed=$((passed + 1))
    else
        failed=$((failed + 1))
        echo "failed: $2"
    fi
}

cp "$header" "$out/include/padcheck.h"
if notices; then said no "the header as it is does not pass"; else said yes; fi
while IFS='|' read -r what command; do
    sed "$command" "$header" >"$out/include/padcheck.h"
    if cmp -s "$header" "$out/include/padcheck.h"; then
        said no "$what: the edit changes nothing: $command"
    elif ! notices; then
        said no "$what: not noticed: $command"
    # `holding` is 0 at the end of every text, so that only the assertion tells its place from the others that are 0.
    elif [ "$what" != PADCHECK_HOLDING ] && ! notices -DCALLS_ALONE; then
        said no "$what: not noticed by what the library answers: $command"
    else
        said yes
    fi
done <"$out/edits"

# The words of the declarations that begin at a line like this, a sed command for each that changes it.
words() {
    awk -v from="$2" '
        $0 ~ from { on = 1 }
        on {
            count = gsub(/[A-Za-z0-9_]+/, "&")
            for (i = 1; i <= count; i++) print NR "s/[A-Za-z0-9_][A-Za-z0-9_]*/&x/" i
        }
        /;$/ { on = 0 }' "$1"
}
declarations() {
    file=$1
    shift
    while read -r command; do
        sed "$command" "$file" >"$out/changed"
        if sh tests/c/prototypes.sh "$@" >"$out/log" 2>&1; then
            said no "a declaration of $file: not noticed: $command"
        else
            said yes
        fi
    done <"$out/edits"
}
table=bindings/rust/src/lent.rs
words "$header" '^uint32_t padcheck_' >"$out/edits"
declarations "$header" "$out/changed" "$table"
words "$table" '^    pub fn [a-z]' >"$out/edits"
declarations "$table" "$header" "$out/changed"

# What the table's macro declares for each form of what is lent, behind its form, and the entry that it declares.
awk '
    function edits(from) {
        before = gsub(/[A-Za-z0-9_]+/, "&", from)
        count = gsub(/[A-Za-z0-9_]+/, "&")
        for (i = before + 1; i <= count; i++) print NR "s/[A-Za-z0-9_][A-Za-z0-9_]*/&x/" i
    }
    match($0, /^    \(\$call:tt .*\$lent:ident: /) { from = substr($0, 1, RLENGTH); sub(/ \$\(, .*/, ""); edits(from) }
    /^ *\[\$\(\$declared\)\* / || /^ *#\[link_name/ || /^ *fn entry\(/ { edits("") }' "$table" >"$out/edits"
declarations "$table" "$header" "$out/changed"

# The table with each signature on one line, and for each thing that a call is lent the signature without it, with it behind the next, and with
# another type of the table for its own.
sed -e ':join' -e '/^    pub fn .*[(,]$/ {' -e 'N' -e 's/\n */ /' -e 'b join' -e '}' \
    -e '/^    pub fn / { s/( /(/; s/, );$/);/' -e '}' "$table" >"$out/signatures.rs"
if sh tests/c/prototypes.sh "$header" "$out/signatures.rs" >"$out/log" 2>&1; then
    said yes
else
    said no "the table with each signature on one line does not pass"
fi
awk '
    # The line with these in the place of the parameters from one to another.
    function edit(from, to, others) {
        line = ""
        for (j = 1; j <= count; j++) {
            one = j == from ? others : j > from && j <= to ? "" : lent[j]
            if (one != "") line = line (line == "" ? "" : ", ") one
        }
        print FNR "c\\" call line ");"
    }
    !/^    pub fn / { next }
    {
        call = substr($0, 1, index($0, "("))
        count = split(substr($0, length(call) + 1, length($0) - length(call) - 2), lent, ", ")
        for (i = 1; i <= count; i++) {
            name = substr(lent[i], 1, index(lent[i], " "))
            own = substr(lent[i], length(name) + 1)
            if (NR == FNR) {
                if (!(own in place)) { place[own] = types; type[types++] = own }
                continue
            }
            edit(i, i, "")
            if (i < count) edit(i, i + 1, lent[i + 1] ", " lent[i])
            edit(i, i, name type[(place[own] + 1) % types])
        }
    }' "$out/signatures.rs" "$out/signatures.rs" >"$out/edits"
declarations "$out/signatures.rs" "$header" "$out/changed"
rm -rf "$out"
echo "$passed passed, $failed failed"
[ "$failed" = 0 ]
