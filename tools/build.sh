#!/bin/sh
# build.sh [lib|leaves|programs|proved]: builds what is linked and run. What no check has proved since it last changed is proved first.
#   lib       target/staticlib/libpadcheck.a, the library for Rust and C
#   leaves    target/staticlib/libleaves.a, for the tests
#   programs  the programs card, replay_charts, replay_figures and replay_files, in target/bin
#   proved    all of them, out of what `rt ci` has just proved and left in a clean clone, so that no crate is proved twice
# With no word it builds all of them.
set -eu
cd "$(dirname "$0")/.."
. tests/need.sh
need "what is built here is proved with it" rt

# A static library exports what its own crate does.
static() {
    (cd "crates/$1" && rt lib)
    mkdir -p target/staticlib
    cp "crates/$1/out/lib$1.a" "target/staticlib/lib$1.a"
}

# The same over the libraries that `rt ci` left, so that this crate alone is checked once more.
static_over_proved() {
    name=$1
    kit=$(dirname "$(rt doc)")
    set -- --extern "core=$kit/rlibs/core.rlib" --extern "std=$kit/rlibs/std.rlib" -L "dependency=$kit/rlibs"
    for below in $(sed -n "s/^$name staticlib://p" crates.txt); do
        set -- "$@" --extern "$below=crates/$below/out/rlib/$below.rlib"
    done
    for rlib in crates/*/out/rlib; do
        set -- "$@" -L "dependency=$rlib"
    done
    mkdir -p target/staticlib
    "$kit/bin/rattle" build --crate-name "$name" "crates/$name/src/lib.rt" --crate-type staticlib "$@" \
        --antt-project "$kit/rattle/logic/antt-project.json" --logic-built "$kit/logic_built" --toolchain "$kit/toolchain" \
        --jobs 2 -o "target/staticlib/lib$name.a"
}

program() {
    (cd "crates/$1" && rt run </dev/null >/dev/null)
    mkdir -p target/bin
    cp "crates/$1/out/$1" "target/bin/$1"
}

all_programs="card replay_charts replay_figures replay_files"

programs() {
    for it in $all_programs; do
        program "$it"
    done
}

# Those that `rt ci` ran.
programs_that_ran() {
    mkdir -p target/bin
    for it in $all_programs; do
        cp "crates/$it/out/$it" "target/bin/$it"
    done
}

case ${1:-all} in
lib) static padcheck ;;
leaves) static leaves ;;
programs) programs ;;
all)
    static padcheck
    static leaves
    programs
    ;;
proved)
    static_over_proved padcheck
    static_over_proved leaves
    programs_that_ran
    ;;
*)
    echo "build.sh: $1 is not known; lib, leaves, programs and proved are" >&2
    exit 2
    ;;
esac
