#!/bin/sh
# Everything in Rust and C over the archive: the crates' tests, the C programs, the header against what is exported, the
# disassembly, what an installed archive gives, a bounded differential run.
#   tests/host.sh [CASES]
# DOORSEDGE_MOCK=1 takes the plain Rust model for the proved archive, and leaves out what is about the archive itself.
# On another processor than x86-64: see tests/processor.sh.
set -eu
cd "$(dirname "$0")/.."
. tests/processor.sh
features=$(tests/archive.sh)
cargo test -q --release -p model -p oracle
cargo test -q --release -p doorsedge -p archive $features
if [ -n "$features" ]; then
    host/c/run.sh mock
else
    host/c/run.sh
    tools/check-header "${DOORSEDGE_ARCHIVE:-target/staticlib}/libhost.a"
    tests/probe.sh
    tests/stack-use.sh
    tests/install.sh
fi
./differential "${1:-20000}"
