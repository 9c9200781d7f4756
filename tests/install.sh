#!/bin/sh
# Installs into a new place and uses what lies there: the C example by the pkg-config file's flags alone, then the Rust
# crate's tests, once where DOORSEDGE_PREFIX names the place and once where pkg-config finds it, in a copy without target/.
set -eu
cd "$(dirname "$0")/.."
. tests/processor.sh
place=$(mktemp -d)
trap 'rm -rf "$place"' EXIT
prefix=$place/prefix
./install "$prefix" >/dev/null

[ "$(cd "$prefix" && find . -type f | sort | tr '\n' ' ')" = "./include/doorsedge.h ./lib/libdoorsedge.a ./lib/pkgconfig/doorsedge.pc " ] || {
    echo "install: not the three files alone are in PREFIX" >&2
    exit 1
}
DESTDIR=$place/root ./install /opt/doorsedge >/dev/null
grep -qx 'prefix=/opt/doorsedge' "$place/root/opt/doorsedge/lib/pkgconfig/doorsedge.pc"

# the flags, by pkg-config where it is there, else read from the file as it would
if command -v pkg-config >/dev/null 2>&1; then
    flags=$(PKG_CONFIG_PATH=$prefix/lib/pkgconfig pkg-config --cflags --libs doorsedge)
else
    echo "install: pkg-config is missing (the package pkgconf): its file is read by sed" >&2
    flags=$(sed -n -e "s|\${libdir}|$prefix/lib|" -e "s|\${includedir}|$prefix/include|" -e 's/^Libs: //p' -e 's/^Cflags: //p' "$prefix/lib/pkgconfig/doorsedge.pc" | tr '\n' ' ')
fi
cp host/c/recorder.c "$place/"
# shellcheck disable=SC2086
(cd "$place" && ${CC:-cc} recorder.c $flags -o recorder)
${DOORSEDGE_EMULATOR:-} "$place/recorder" | diff -u host/c/recorder.stdout -

build_scripts=$place/cargo/${CARGO_BUILD_TARGET:+$CARGO_BUILD_TARGET/}release/build
# the Rust crate, of a tree that has no archive of its own
mkdir "$place/tree"
cp -r Cargo.toml Cargo.lock host rust tests "$place/tree/"
crate_finds() { # WHERE, with the environment set that leads there
    (cd "$place/tree" && CARGO_TARGET_DIR=$place/cargo cargo test -q --release -p doorsedge >"$place/said" 2>&1) || {
        cat "$place/said" >&2
        echo "install: the Rust crate does not find the archive by $1" >&2
        exit 1
    }
    grep -qs "rustc-link-search=native=$prefix/lib" "$build_scripts"/doorsedge-*/output || { echo "install: the Rust crate links another archive" >&2; exit 1; }
    rm -rf "$build_scripts"/doorsedge-*
}
unset DOORSEDGE_ARCHIVE
DOORSEDGE_PREFIX=$prefix crate_finds DOORSEDGE_PREFIX
by=DOORSEDGE_PREFIX
if command -v pkg-config >/dev/null 2>&1; then
    PKG_CONFIG_PATH=$prefix/lib/pkgconfig crate_finds pkg-config
    by="$by and by pkg-config"
fi
echo "install: the C example runs by the pkg-config file's flags; the Rust crate finds the archive by $by"
