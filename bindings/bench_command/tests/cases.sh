# To be sourced by test.sh: how a case is run. $padcheck is the program, $out a folder to work in; what passes is counted in $passed.

failed() {
    echo "failed: $1"
    for file in "$out/stdout" "$out/stderr"; do
        echo "$(basename "$file"):"
        head -n 20 "$file"
    done
    exit 1
}

# Runs the program with these words, after the exit status that it must have.
run() {
    want=$1
    shift
    status=0
    "$padcheck" "$@" >"$out/stdout" 2>"$out/stderr" || status=$?
    [ "$status" -eq "$want" ] || failed "padcheck $*: status $status, should be $want"
}

# All that it prints is the file tests/stored/NAME; it says nothing on standard error.
stored() {
    want=$1 name=$2
    shift 2
    run "$want" "$@"
    diff "$tests/stored/$name" "$out/stdout" || failed "padcheck $*: not what is stored in $name"
    [ ! -s "$out/stderr" ] || failed "padcheck $*: standard error is not empty"
    passed=$((passed + 1))
}

# What it prints has this text, and standard error is empty.
printed() {
    want=$1 text=$2
    shift 2
    run "$want" "$@"
    grep -qF -- "$text" "$out/stdout" || failed "padcheck $*: '$text' is not printed"
    [ ! -s "$out/stderr" ] || failed "padcheck $*: standard error is not empty"
    passed=$((passed + 1))
}

# It prints nothing but one line on standard error, which has this text.
told() {
    want=$1 text=$2
    shift 2
    run "$want" "$@"
    [ ! -s "$out/stdout" ] || failed "padcheck $*: standard output is not empty"
    one_line "$text" "$*"
}

# Standard error is one line with this text.
one_line() {
    [ "$(wc -l <"$out/stderr")" -eq 1 ] || failed "padcheck $2: not one line on standard error"
    grep -qF -- "$1" "$out/stderr" || failed "padcheck $2: standard error does not say '$1'"
    passed=$((passed + 1))
}

# What it prints has this text, and standard error is one line with that one, which is no doubt.
noted() {
    want=$1 text=$2 line=$3
    shift 3
    run "$want" "$@"
    grep -qF -- "$text" "$out/stdout" || failed "padcheck $*: '$text' is not printed"
    one_line "$line" "$*"
}
