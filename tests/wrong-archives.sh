#!/bin/sh
# Wrong archives, each of which the tests must find: the mock makes the mistake that DOORSEDGE_WRONG names (rust/mock/src/wrong.rs), and
# the archive's tests of the move must fail on it.
#   tests/wrong-archives.sh [NAME..]
set -eu
cd "$(dirname "$0")/.."
export DOORSEDGE_MOCK=1
[ $# -gt 0 ] || set -- $(grep -o '^ *"[a-z_]*"' rust/mock/src/wrong.rs | tr -d ' "' | sort -u)
said=$(mktemp)
trap 'rm -f "$said"' EXIT
build() { cargo test -q --release -p archive --features mock --test transfer "$@" >"$said" 2>&1; }
build || { cat "$said" >&2; echo "wrong-archives: the tests fail on the right one" >&2; exit 1; }
missed=0
for name in "$@"; do
    if DOORSEDGE_WRONG=$name build; then
        echo "wrong-archives: $name is not found"
        missed=$((missed + 1))
    else
        echo "wrong-archives: $name is found by $(grep -c -- '^---- ' "$said") tests"
    fi
done
[ "$missed" = 0 ] || exit 1
echo "wrong-archives: each of the $# is found"
