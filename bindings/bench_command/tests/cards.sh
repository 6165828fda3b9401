# To be sourced by test.sh: the card form beside the program card, byte by byte, and every form beside the oracle's sheet.
card=target/bin/card oracle=target/oracle/oracle
[ -x "$oracle" ] || sh tests/oracle/build.sh
if [ ! -x "$card" ]; then
    echo "test.sh: $card is missing; sh tools/build.sh programs builds it" >&2
    exit 1
fi

# Each form of the sheet of the text in $out/text, read with $2 lanes, has the oracle's figures between what the program writes around them.
same_sheets() {
    run 0 sheet "$out/text" --lanes "$2" --form card --force
    "$oracle" sheet card "$2" <"$out/text" >"$out/oracle"
    sed '/^forced: /d' "$out/stdout" | cmp "$out/oracle" - || failed "$1: not the oracle's card"
    run 0 sheet "$out/text" --lanes "$2" --force
    "$oracle" sheet print "$2" <"$out/text" >"$out/oracle"
    # Measure and beat beside the rows of holds and rolls are the program's, and what stands from the library's version on.
    sed -E '1,/^$/d; /^library /,$d; /^holds and rolls$/,$ s/^(.{31}) +[^ ]+ +[^ ]+$/\1/' "$out/stdout" | head -n -1 |
        cmp "$out/oracle" - || failed "$1: not the oracle's figures in print"
    run 0 sheet "$out/text" --lanes "$2" --form json --force
    "$oracle" sheet json "$2" <"$out/text" >"$out/oracle"
    echo >>"$out/oracle"
    sed 's/^.*"figures"://; s/}$//' "$out/stdout" | cmp "$out/oracle" - || failed "$1: not the oracle's figures in JSON"
    passed=$((passed + 3))
}

# The card form of that text, read with 4 lanes, is what the program card prints.
same_card() {
    run 0 sheet "$out/text" --lanes 4 --form card --force
    "$card" <"$out/text" >"$out/card"
    sed '/^forced: /d' "$out/stdout" | cmp "$out/card" - || failed "$1: not the program card's lines"
    passed=$((passed + 1))
    same_sheets "$1" 4
}

cp crates/card/stdin "$out/text"
same_card "the specification's example"
: >"$out/text"
same_card "an empty text"
yes 1111 | head -c 4095 >"$out/text"
same_card "4,095 bytes"
yes , | head -c 4095 >"$out/text"
same_card "2,049 measures"
printf '2004\n0000\n3100\n0003\n,\n2222\n3333\n' >"$out/text"
same_card "holds with tails"
printf '2000\nm000\n3000\n0000\n' >"$out/text"
same_card "a hold broken off"
cp examples/first-steps.txt "$out/text"
same_card "a chart of several measures"
sed 's/$/\r/' examples/first-steps.txt >"$out/text"
same_card "the same with bytes 13"

# Charts by chance: measures of 4 to 32 rows, some thinned out, with comments, blanks, short lines and holds.
# Those of 4 lanes are printed by the program card too.
number=0
while [ "$number" -lt 60 ]; do
    case $((number % 6)) in
    0) lanes=5 ;;
    1) lanes=8 ;;
    2) lanes=10 ;;
    *) lanes=4 ;;
    esac
    awk -v seed="$number" -v lanes="$lanes" '
        function below(n) { return int(rand() * n) }
        BEGIN {
            srand(seed + 1)
            letters = below(2) ? "00000000011234" : "0000001123344MLFKmlfx"
            for (measures = 1 + below(6); measures > 0; measures--) {
                rows = 4 * 2 ^ below(4) - (below(8) == 0)
                step = 2 ^ below(3)
                for (row = 0; row < rows; row++) {
                    if (below(12) == 0) print below(2) ? "// x" : substr("000", 1, below(4))
                    line = ""
                    for (lane = 0; lane < lanes; lane++)
                        line = line (row % step ? "0" : substr(letters, 1 + below(length(letters)), 1))
                    print (below(9) ? "" : " ") line (below(9) ? "" : " // y") (below(9) ? "" : "\r")
                }
                if (measures > 1) print below(5) ? "," : " , // z"
            }
            if (below(3)) print ";"
            if (below(3) == 0) print "1111111111"
        }' | head -c 4095 >"$out/text"
    case $lanes in
    4) same_card "chart $number by chance" ;;
    *) same_sheets "chart $number by chance" "$lanes" ;;
    esac
    number=$((number + 1))
done
