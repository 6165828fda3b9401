# To be sourced by test.sh: the program is installed without network, and the release is the same bytes twice.
CARGO_TARGET_DIR=$PWD/target/cargo cargo install --quiet --offline --locked --path bindings/bench_command --root "$out/installed" \
    2>"$out/stderr" || failed "cargo install"
"$out/installed/bin/padcheck" --version >"$out/stdout"
"$padcheck" --version | diff - "$out/stdout"
passed=$((passed + 1))

# The release is made with a gate's line and a commit that are made up; the second time in another folder.
release() {
    sh tools/release.sh --commit 0123abc --date 1700000000 "$@" >"$out/stdout" 2>"$out/stderr"
}
archive=target/release/padcheck-0.5.0-x86_64-linux.tar.gz
rm -f "$archive"
if release; then failed "a release without the gate"; fi
one_line "the gate's log is wanted" "release.sh"
if release --gate "7 passed, 1 failed"; then failed "a release that did not pass"; fi
one_line "the gate did not pass" "release.sh"
[ ! -e "$archive" ] || failed "there is an archive"
printf 'some step\n7 passed, 0 failed\n' >"$out/gate.log"
release "$out/gate.log" || failed "the release"
mv "$archive" "$out/first.tar.gz"
mkdir -p "$out/copy/tests"
cp -r bindings include tools NOTICE LICENSE "$out/copy"
cp tests/need.sh "$out/copy/tests"
(
    PADCHECK_LIB_DIR=${PADCHECK_LIB_DIR:-$PWD/target/staticlib}
    export PADCHECK_LIB_DIR
    cd "$out/copy"
    release --gate "7 passed, 0 failed"
) || failed "the second release"
cmp "$out/first.tar.gz" "$out/copy/$archive" || failed "the second release has other bytes"
passed=$((passed + 1))

# It has what it says, with checksums, and no folder of this machine.
tar -x -z -f "$out/first.tar.gz" -C "$out"
released=$out/padcheck-0.5.0
(cd "$released" && sha256sum --check --strict --quiet SHA256SUMS) || failed "the release's checksums"
(cd "$released" && find . -type f | LC_ALL=C sort) | tr '\n' ' ' >"$out/stdout"
[ "$(cat "$out/stdout")" = "./GATE ./LICENSE ./NEEDS ./NOTICE ./SHA256SUMS ./bin/padcheck ./include/padcheck.h ./lib/libpadcheck.a \
./lib/pkgconfig/padcheck.pc " ] || failed "the files of the release"
printf 'commit 0123abc\ngate: 7 passed, 0 failed\n' | diff - "$released/GATE"
# The pages name a glibc that is late enough.
needed=$(sed -n 's/^system: Linux, glibc \([0-9.]*\) or later$/\1/p' "$released/NEEDS")
[ -n "$needed" ] && grep -qxF "processor: x86-64-v2 (SSE4.2, POPCNT)" "$released/NEEDS" || failed "what the release needs"
for page in README.md docs/BENCH.md docs/CALLS.md; do
    named=$(sed -n 's/.*x86-64-v2.*glibc \([0-9.]*[0-9]\).*/\1/p' "$page")
    [ "$(printf '%s\n' "$named" "$needed" | sort -V | tail -n 1)" = "$named" ] || failed "$page names glibc '$named' and not $needed"
done
if grep -qF "$PWD" -r "$released"; then failed "the release names a folder of this machine"; fi
"$released/bin/padcheck" sheet examples/first-steps.txt --lanes 4 --form card | diff examples/first-steps.sheet.txt -
cat >"$out/program.c" <<'END'
#include <padcheck.h>
#include <stdio.h>
int main(void)
{
    uint64_t chart[PADCHECK_CHART_FIGURES];
    const char file[] = "#NOTES:pump-single:::::;";
    uint32_t number = padcheck_sm_chart((const uint8_t *)file, sizeof file - 1, 0, chart);
    printf("%s %u %d\n", PADCHECK_VERSION, number, (int)chart[PADCHECK_CHART_LANES]);
    return 0;
}
END
cc -I "$released/include" -o "$out/program" "$out/program.c" -L "$released/lib" -lpadcheck
[ "$("$out/program")" = "0.5.0 0 5" ] || failed "a C program over the release"
grep -qx 'Version: 0.5.0' "$released/lib/pkgconfig/padcheck.pc" || failed "the release's pkg-config file"
passed=$((passed + 4))
