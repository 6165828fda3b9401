#!/bin/sh
# renew.sh TABLES: puts the tables of docs/SPEED.md in anew, from what `bench` printed into this file.
# A table stands there between `<!-- NAME -->` and `<!-- end -->`. The sentences around them are not touched: read them again.
set -eu
if [ $# -ne 1 ]; then
    sed -n '2,3s/^# //p' "$0"
    exit 2
fi
tables=$(realpath "$1")
cd "$(dirname "$0")/.."
page=docs/SPEED.md
parts=target/bench/page
mkdir -p "$parts"

# A table of the output by the start of its first line; the first such one.
table() { awk -v head="$1" 'index($0, head) == 1 { on = 1 } on && !/^\|/ { exit } on' "$tables"; }

table '| call | entry |' >"$parts/ranges"
# Of the entries alone, without the first column, and a call's name once.
table '| way | call | text | LF 4 |' | sed -n '1s/^| way |/|/p; 2s/^|---|/|/p; s/^| entry |/|/p' |
    awk -F'|' '$2 == call { sub(/`[a-z_]*` /, "") } { if ($2 ~ /`/) call = $2; print }' >"$parts/ratios"

awk -v parts="$parts" '
    /^<!-- end -->$/ { inside = 0 }
    !inside { print }
    /^<!-- [a-z]+ -->$/ && $2 != "end" {
        inside = 1
        file = parts "/" $2
        count = 0
        while ((getline line <file) > 0) { print line; count++ }
        if (count == 0) { print "renew.sh: nothing for " $2 >"/dev/stderr"; failed = 1 }
    }
    END { exit failed }' "$page" >"$parts/page"
cp "$parts/page" "$page"
