#!/bin/sh
# Runs the binding's tests and doc tests without network, over target/staticlib or the folder in PADCHECK_LIB_DIR.
# The last line is 'N passed, 0 failed'.
set -eu
cd "$(dirname "$0")"
. ../../tests/need.sh
need "the binding is built with it" cargo
export CARGO_TARGET_DIR=../../target/cargo
mkdir -p "$CARGO_TARGET_DIR"
log=$CARGO_TARGET_DIR/test.log
if ! RUSTFLAGS=-Dwarnings cargo test --offline --locked >"$log" 2>&1; then
    cat "$log"
    exit 1
fi
cat "$log"
passed=$(awk '/^test result: ok\./ { passed += $4 } END { print passed + 0 }' "$log")
echo "$passed passed, 0 failed"
