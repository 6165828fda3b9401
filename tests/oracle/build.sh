#!/bin/sh
# Builds the oracle into target/oracle with rustc 1.88 or later: library, program, self-check.
set -eu
cd "$(dirname "$0")/../.."
. tests/need.sh
need "the oracle is built with it" rustc
out=target/oracle
mkdir -p "$out"
build() {
    rustc --edition 2024 -O "$@"
}
build --crate-type rlib --crate-name oracle -o "$out/liboracle.rlib" tests/oracle/oracle.rs
build --extern oracle="$out/liboracle.rlib" -o "$out/oracle" tests/oracle/main.rs
build --extern oracle="$out/liboracle.rlib" -o "$out/check" tests/oracle/check.rs
