#!/bin/sh
# Shows that the replays notice a changed sample, with the programs of target/bin as tools/build.sh leaves them. Ends with 'N passed, M failed'.
set -eu
cd "$(dirname "$0")/../.."
. tests/need.sh
need "the test of the replays is built with it" rustc
out=target/vectors
mkdir -p "$out"
rustc --edition 2024 -O -o "$out/changed" tests/vectors/changed.rs
"$out/changed" crates/replay_charts/stdin target/bin/replay_charts target/bin/replay_figures crates/replay_files/stdin target/bin/replay_files
