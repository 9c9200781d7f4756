#!/bin/sh
# Sees to the archive, and prints the words for cargo: none, or those for the plain Rust model where DOORSEDGE_MOCK is set.
set -eu
cd "$(dirname "$0")/.."
if [ -n "${DOORSEDGE_MOCK:-}" ]; then
    echo "--features mock"
elif [ -z "${DOORSEDGE_ARCHIVE:-}" ]; then
    archive=target/staticlib/libhost.a
    if [ ! -f "$archive" ] || [ -n "$(find crates.txt crates/*/src crates/*/specs crates/*/proofs -newer "$archive" -print | head -n 1)" ]; then
        echo "$archive is missing or older than the crates: tools/archive (DOORSEDGE_MOCK=1 does without)" >&2
        tools/archive
    fi
elif [ ! -f "$DOORSEDGE_ARCHIVE/libhost.a" ]; then
    echo "$DOORSEDGE_ARCHIVE/libhost.a is missing" >&2
    exit 1
fi
