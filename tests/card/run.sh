#!/bin/sh
# Runs the program card (target/bin/card, built by tools/build.sh) beside the oracle's card: the specification's example, an empty input, 4,095 and
# 4,096 bytes, holds with tails, a chart of several measures. The last line is 'N passed, 0 failed'.
set -eu
cd "$(dirname "$0")/../.."
card=target/bin/card oracle=target/oracle/oracle
for program in "$card" "$oracle"; do
    if [ ! -x "$program" ]; then
        echo "run.sh: $program is missing; tools/build.sh programs and tests/oracle/build.sh build them" >&2
        exit 1
    fi
done
out=target/card
mkdir -p "$out"
passed=0

# Compares the card of the text in $out/text with what the oracle prints, and its first line with the given one.
same() {
    "$card" <"$out/text" >"$out/card"
    "$oracle" card <"$out/text" >"$out/oracle"
    first=$(head -n 1 "$out/card")
    if ! cmp "$out/card" "$out/oracle" || [ "$first" != "$2" ]; then
        echo "$1: the card begins '$first', should begin '$2' and be as the oracle's"
        exit 1
    fi
    echo "$1: $(wc -l <"$out/card") lines"
    passed=$((passed + 1))
}

# n lines of a text, cut to so many bytes
repeated() {
    yes "$1" | head -c "$2" >"$out/text"
}

cp crates/card/stdin "$out/text"
same "the specification's example" "measures 1"
: >"$out/text"
same "an empty input" "measures 1"
repeated 1111 4095
same "4,095 bytes" "measures 1"
repeated 1111 4096
same "4,096 bytes" "refused 1"
repeated , 4095
same "2,049 measures" "measures 2049"
head -c 70000 /dev/zero >"$out/text"
same "70,000 bytes" "refused 1"
printf '2004\n0000\n3100\n0003\n,\n2222\n3333\n' >"$out/text"
same "holds with tails" "measures 2"
printf '2000\nm000\n3000\n0000\n' >"$out/text"
same "a hold broken off" "measures 1"
cp examples/first-steps.txt "$out/text"
same "a chart of several measures" "measures 4"
cmp "$out/card" examples/first-steps.sheet.txt
echo "$passed passed, 0 failed"
