#!/bin/sh
# Tests the program padcheck without network, over target/staticlib or the folder in PADCHECK_LIB_DIR: its unit tests, each word beside stored
# output and beside the page docs/BENCH.md, every exit status, files that are wrong beside files that are not, traces by hand, the longest
# files, too little memory, full and closed outputs, the card form beside the program card and the oracle's, what `rig` leaves, and the
# release. The last line is 'N passed, 0 failed'.
set -eu
cd "$(dirname "$0")"
. ../../tests/need.sh
need "the program is built with it" cargo
need "the kit's identity is asked for with it" rt
need "the release and an old processor are tried with it" cc objdump tar sha256sum
export CARGO_TARGET_DIR=../../target/cargo
mkdir -p "$CARGO_TARGET_DIR"
log=$CARGO_TARGET_DIR/bench_command.log
if ! RUSTFLAGS=-Dwarnings cargo test --offline --locked >"$log" 2>&1 ||
    ! RUSTFLAGS=-Dwarnings cargo build --offline --locked >>"$log" 2>&1; then
    cat "$log"
    exit 1
fi
cat "$log"
passed=$(awk '/^test result: ok\./ { passed += $4 } END { print passed + 0 }' "$log")

# From here on in the repository's folder, so that stored output has the names of its files.
cd ../..
unset CARGO_TARGET_DIR
tests=$PWD/bindings/bench_command/tests
padcheck=$PWD/target/cargo/debug/padcheck
out=$PWD/target/bench_command
rm -rf "$out"
mkdir -p "$out"
. "$tests/cases.sh"
. "$tests/words.sh"
. "$tests/statuses.sh"
. "$tests/wrong.sh"
. "$tests/traces.sh"
. "$tests/cards.sh"
. "$tests/files.sh"
. "$tests/memory.sh"
. "$tests/release.sh"
echo "$passed passed, 0 failed"
