#!/bin/sh
# Builds the C test into target/c with cc, with what definitions.sh prints, runs it, and runs it again under valgrind, where every slice has its exact size.
# The library is built first, or taken from PADCHECK_LIB_DIR where that is set.
# The last line is 'N passed, 0 failed', counted over both runs; the exit status is not 0 where a check fails or valgrind finds an error.
set -eu
cd "$(dirname "$0")/../.."
. tests/need.sh
need "the C test needs it" cc valgrind
if [ -z "${PADCHECK_LIB_DIR:-}" ]; then
    sh tools/build.sh lib
    PADCHECK_LIB_DIR=target/staticlib
fi
out=target/c
mkdir -p "$out"
sh tests/c/definitions.sh >"$out/definitions.h"
cc -std=c11 -O1 -g -Wall -Wextra -Werror -I include -I "$out" -o "$out/check" \
    tests/c/main.c tests/c/header.c tests/c/calls.c tests/c/checks.c tests/c/lent.c tests/c/presses.c tests/c/sm.c tests/c/stored.c \
    tests/c/written.c \
    "$PADCHECK_LIB_DIR/libpadcheck.a"

# Shows what a run writes and adds its count to `total`.
total=0
counted() {
    echo "$1:"
    shift
    if ! "$@" >"$out/log" 2>&1; then
        cat "$out/log"
        exit 1
    fi
    cat "$out/log"
    passed=$(sed -n '$s/^\([0-9][0-9]*\) passed, 0 failed$/\1/p' "$out/log")
    total=$((total + ${passed:?the run did not end with its count}))
}

counted "from C" "$out/check" crates/replay_charts/stdin
counted "from C under valgrind" valgrind --quiet --error-exitcode=3 --leak-check=full --errors-for-leak-kinds=all \
    "$out/check" crates/replay_charts/stdin
echo "$total passed, 0 failed"
