#!/bin/sh
# Disassembles the archive and fails where an exported function has a stack-probe loop, whose register the compiler may
# overwrite (a function's locals then pass 32 KiB), or where an entry of include/doorsedge.h is not exported.
#   tests/probe.sh [ARCHIVE]
set -eu
cd "$(dirname "$0")/.."
. tests/processor.sh
archive=${1:-${DOORSEDGE_ARCHIVE:-target/staticlib}/libhost.a}
[ -f "$archive" ] || { echo "probe: $archive is missing: make it with tools/archive" >&2; exit 1; }
code=$(mktemp)
trap 'rm -f "$code"' EXIT
"${OBJDUMP:-objdump}" -d --no-show-raw-insn "$archive" >"$code"

status=0
for entry in $(grep -o 'uint64_t doorsedge_[a-z0-9_]*' include/doorsedge.h | cut -d' ' -f2); do
    grep -q "<$entry>:" "$code" || { echo "probe: $entry is not in $archive"; status=1; }
done

# a probe loop lowers the stack towards %r11: `sub $SIZE,%r11` or `lea -SIZE(%rsp),%r11`
found=$(awk '
    /^[0-9a-f]+ <.*>:$/ { name = $2 }
    /sub +\$0x[0-9a-f]+,%r11|lea +-0x[0-9a-f]+\(%rsp\),%r11|__rust_probestack|__chkstk/ { print name " " $0 }
' "$code")
if [ -n "$found" ]; then
    echo "$found" | grep '^<doorsedge_' && { echo "probe: a stack-probe loop in an exported function"; status=1; }
    echo "$found" | grep -v '^<doorsedge_' | sed 's/^/probe: (not exported) /' || true
fi
[ $status = 0 ] && echo "probe: no exported function of $archive has a stack-probe loop"
exit $status
