#!/bin/sh
# Builds the timing program into target/bench with rustc 1.88 or later, and the oracle where it is older than its source.
# The library is built first (rt), or taken from PADCHECK_LIB_DIR where that is set.
set -eu
cd "$(dirname "$0")/.."
. tests/need.sh
need "the timing program is built with it" rustc objcopy
if [ -z "${PADCHECK_LIB_DIR:-}" ]; then
    need "the library is built with it" rt
    sh tools/build.sh lib
    PADCHECK_LIB_DIR=target/staticlib
fi
oracle=target/oracle/liboracle.rlib
if [ ! -e "$oracle" ] || [ -n "$(find tests/oracle docs/src -newer "$oracle")" ]; then
    sh tests/oracle/build.sh
fi
out=target/bench
mkdir -p "$out"
# Where a function begins, at a multiple of 32 bytes or 16 past one, the linker decides, and some processors take up to a third longer over the same
# loop at one of the two. So each begins at a multiple, ours and the Rust's.
for it in "$PADCHECK_LIB_DIR/libpadcheck.a" "$oracle"; do
    objcopy --set-section-alignment '.text*=32' "$it" "$out/${it##*/}"
done
rustc --edition 2024 -O --crate-type rlib --crate-name padcheck -o "$out/libpadcheck.rlib" bindings/rust/src/lib.rs
rustc --edition 2024 -O --extern oracle="$out/liboracle.rlib" --extern padcheck="$out/libpadcheck.rlib" \
    -L native="$out" -l static=padcheck -o "$out/bench" bench/main.rs
