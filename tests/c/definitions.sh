#!/bin/sh
# Prints what crates/definitions names, for C: REFUSAL(NAME, number, "words", "cause") for each refusal, and FIELD(NAME, place) for each field of a
# tally, counted from 0. Names are in the header's letters.
set -eu
cd "$(dirname "$0")/../.."
awk '
function header(name) {
    gsub(/[A-Z]/, "_&", name)
    sub(/^_/, "", name)
    return toupper(name)
}
/^pub enum Refusal \{/ { item = "refusal" }
/^pub struct ArrowStats \{/ { item = "field" }
/^    pub fn words\(self\)/ { item = "words" }
/^    pub fn caused_by\(self\)/ { item = "cause" }
/^    ?}$|^}$/ { item = "" }
item == "refusal" && / = [0-9]+,$/ {
    names[++refusals] = $1
    numbers[$1] = $3 + 0
}
item == "field" && /^    pub [a-z_]+: / {
    sub(/:$/, "", $2)
    printf "FIELD(%s, %d)\n", header($2), fields++
}
# The names of an arm stand before its text, on its line or on lines above.
item == "words" || item == "cause" {
    rest = $0
    sub(/"[^"]*",?$/, "", rest)
    while (match(rest, /Refusal::[A-Za-z]+/)) {
        arm[++named] = substr(rest, RSTART + 9, RLENGTH - 9)
        rest = substr(rest, RSTART + RLENGTH)
    }
    if (match($0, /"[^"]*"/)) {
        for (; named > 0; named--) said[item, arm[named]] = substr($0, RSTART, RLENGTH)
    }
}
END {
    for (i = 1; i <= refusals; i++) {
        name = names[i]
        printf "REFUSAL(%s, %d, %s, %s)\n", header(name), numbers[name], said["words", name], said["cause", name]
    }
    if (refusals == 0 || fields == 0) exit 1
}' crates/definitions/src/lib.rt
