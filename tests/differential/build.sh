#!/bin/sh
# Builds the differential run into target/differential: the oracle, the Rust binding and the program (rustc 1.88 or later). The static libraries
# padcheck and leaves are built first (rt), or taken from PADCHECK_LIB_DIR where that is set.
set -eu
cd "$(dirname "$0")/../.."
. tests/need.sh
need "the differential run is built with it" rustc
sh tests/oracle/build.sh
if [ -z "${PADCHECK_LIB_DIR:-}" ]; then
    need "the libraries are built with it" rt
    sh tools/build.sh lib
    sh tools/build.sh leaves
    PADCHECK_LIB_DIR=target/staticlib
fi
out=target/differential
mkdir -p "$out"
rustc --edition 2024 -O --crate-type rlib --crate-name padcheck -o "$out/libpadcheck.rlib" bindings/rust/src/lib.rs
rustc --edition 2024 -O --extern oracle=target/oracle/liboracle.rlib --extern padcheck="$out/libpadcheck.rlib" \
    -L native="$PADCHECK_LIB_DIR" -l static=padcheck -l static=leaves \
    -o "$out/differential" tests/differential/main.rs
