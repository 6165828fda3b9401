#!/bin/sh
# release.sh GATE-LOG, or release.sh --gate LINE: makes target/release/padcheck-VERSION-x86_64-linux.tar.gz, with the program padcheck,
# libpadcheck.a, padcheck.h, a pkg-config file, NOTICE and LICENSE, the commit with the gate's last line, what it needs, and checksums.
# GATE-LOG is what .ci/run printed; its last line, or LINE, has to read 'N passed, 0 failed'. A second run gives the same bytes.
# --commit ID and --date SECONDS say of which commit it is and when that was made; without them git is asked.
# The library is taken from PADCHECK_LIB_DIR, else from target/staticlib.
set -eu
cd "$(dirname "$0")/.."
. tests/need.sh
need "the release is made with it" rustc objdump tar gzip sha256sum

refuse() {
    echo "release.sh: $1" >&2
    exit 1
}

gate='' commit='' date=''
while [ $# -gt 0 ]; do
    case $1 in
    --gate | --commit | --date)
        [ $# -gt 1 ] || refuse "$1 needs a value"
        case $1 in
        --gate) gate=$2 ;;
        --commit) commit=$2 ;;
        --date) date=$2 ;;
        esac
        shift 2
        ;;
    -*) refuse "$1 is not known; the first lines of this script say what is" ;;
    *)
        [ -r "$1" ] || refuse "there is no log of the gate at $1"
        gate=$(tail -n 1 "$1")
        shift
        ;;
    esac
done
[ -n "$gate" ] || refuse "the gate's log is wanted, or --gate with its last line: run .ci/run first"
echo "$gate" | grep -Eqx '[1-9][0-9]* passed, 0 failed' || refuse "the gate did not pass: its last line is '$gate'"
if [ -n "$commit$date" ]; then
    [ -n "$commit" ] && [ -n "$date" ] || refuse "--commit and --date are wanted together"
else
    need "the commit is asked for with it" git
    commit=$(git rev-parse HEAD)
    date=$(git log -1 --format=%ct)
    [ -z "$(git status --porcelain)" ] || refuse "there are changes that are in no commit"
fi
lib=${PADCHECK_LIB_DIR:-$PWD/target/staticlib}/libpadcheck.a
[ -f "$lib" ] || refuse "libpadcheck.a is missing: sh tools/build.sh lib makes it"

version=$(sed -n 's/^#define PADCHECK_VERSION "\(.*\)"$/\1/p' include/padcheck.h)
name=padcheck-$version
out=target/release
rm -rf "$out/build" "$out/$name"
mkdir -p "$out/$name/bin" "$out/$name/include" "$out/$name/lib/pkgconfig"

# The program is built by rustc itself: cargo would mix the folder's name into its symbols. No folder of this machine stays in it.
optimised() {
    rustc --edition 2024 -C opt-level=3 -C codegen-units=1 -C strip=symbols --remap-path-prefix="$PWD=." "$@"
}
mkdir "$out/build"
optimised --crate-type rlib --crate-name padcheck -o "$out/build/libpadcheck.rlib" bindings/rust/src/lib.rs
CARGO_PKG_VERSION=$(sed -n 's/^version = "\(.*\)"$/\1/p' bindings/bench_command/Cargo.toml) \
    optimised --crate-name padcheck -C metadata=bench_command --extern padcheck="$out/build/libpadcheck.rlib" \
    -L native="$(dirname "$lib")" -l static=padcheck -o "$out/build/padcheck" bindings/bench_command/src/main.rs
install -m 755 "$out/build/padcheck" "$out/$name/bin"
install -m 644 "$lib" "$out/$name/lib"
install -m 644 include/padcheck.h "$out/$name/include"
install -m 644 NOTICE LICENSE "$out/$name"
cat >"$out/$name/lib/pkgconfig/padcheck.pc" <<END
prefix=\${pcfiledir}/../..
Name: padcheck
Description: The chart figures of StepMania charts, proved
Version: $version
Cflags: -I\${prefix}/include
Libs: -L\${prefix}/lib -lpadcheck
END
printf 'commit %s\ngate: %s\n' "$commit" "$gate" >"$out/$name/GATE"
# The latest version of a symbol of glibc that the program asks for.
glibc=$(objdump -T "$out/$name/bin/padcheck" | sed -n 's/.*GLIBC_\([0-9.]*\).*/\1/p' | sort -V | tail -n 1)
printf 'processor: x86-64-v2 (SSE4.2, POPCNT)\nsystem: Linux, glibc %s or later\n' "$glibc" >"$out/$name/NEEDS"
(cd "$out/$name" && find . -type f | LC_ALL=C sort | sed 's,^\./,,' | xargs sha256sum) >"$out/SHA256SUMS"
mv "$out/SHA256SUMS" "$out/$name"
chmod 644 "$out/$name/GATE" "$out/$name/NEEDS" "$out/$name/SHA256SUMS" "$out/$name/lib/pkgconfig/padcheck.pc"
find "$out/$name" -type d -exec chmod 755 {} +

archive=$out/$name-x86_64-linux.tar.gz
LC_ALL=C tar --create --format=ustar --sort=name --mtime="@$date" --owner=0 --group=0 --numeric-owner \
    --directory "$out" "$name" | gzip -n -9 >"$archive"
rm -rf "$out/build" "$out/$name"
sha256sum "$archive"
