#!/bin/sh
# Wrong archives, each of which the tests must find: the mock makes the mistake in its run files that DOORSEDGE_WRONG names
# (rust/mock/src/wrong_files.rs), and the archive's tests of run files must fail on it.
#   tests/wrong-files.sh [NAME..]
set -eu
cd "$(dirname "$0")/.."
export DOORSEDGE_MOCK=1
[ $# -gt 0 ] || set -- $(grep -o '"[a-z_0-9]*"' rust/mock/src/wrong_files.rs | tr -d '"' | sort -u)
said=$(mktemp)
trap 'rm -f "$said"' EXIT
tests() { cargo test -q --release -p archive --features mock --test files --test files_round --test untouched_files --no-fail-fast >"$said" 2>&1; }
tests || { cat "$said" >&2; echo "wrong-files: the tests fail on the right one" >&2; exit 1; }
missed=0
for name in "$@"; do
    if DOORSEDGE_WRONG=$name tests; then
        echo "wrong-files: $name is not found"
        missed=$((missed + 1))
    else
        echo "wrong-files: $name is found by $(grep -c -- '^---- ' "$said") tests"
    fi
done
[ "$missed" = 0 ] || exit 1
echo "wrong-files: each of the $# is found"
