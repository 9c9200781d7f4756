#!/bin/sh
# Builds the C programs here against the archive and runs them: recorder and finalizer, whose prints are compared with
# recorder.stdout and finalizer.stdout; entries, undo, clone, file and transfer, which call every entry. Then host/python reads the
# file that the recorder saved. `run.sh mock` takes the plain Rust model instead of the proved archive.
set -eu
cd "$(dirname "$0")/../.."
. tests/processor.sh
out=target/cargo/c
mkdir -p "$out"
if [ "${1:-}" = mock ]; then
    cargo build -q --release -p mock
    archive=$made/libmock.a
else
    archive=${DOORSEDGE_ARCHIVE:-target/staticlib}/libhost.a
    [ -f "$archive" ] || { echo "$archive is missing: make it with tools/archive, or run with 'mock'" >&2; exit 1; }
fi
for program in recorder finalizer entries undo clone file transfer; do
    ${CC:-cc} -std=c99 -O2 -Wall -Wextra -Werror -pedantic -Iinclude -o "$out/$program" "host/c/$program.c" "$archive" -lpthread -ldl -lm
done
for program in recorder finalizer; do
    ${DOORSEDGE_EMULATOR:-} "$out/$program" "$out/study.runs" | diff -u "host/c/$program.stdout" -
    echo "host/c/$program: as expected"
done
for program in entries undo clone file transfer; do
    ${DOORSEDGE_EMULATOR:-} "$out/$program"
done
python3 -B host/python/test.py "$out/study.runs"
