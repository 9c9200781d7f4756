#!/bin/sh
# What a call asks of the machine, read from the archive's code: the stack of each entry, and the symbols from outside.
#   tests/stack-use.sh [ARCHIVE]
# Stack: in each function every push, every `sub ..,%rsp` and a return address are added up, then the deepest callee's sum,
# or the 128 bytes that one without callees may use below; so it is a bound, and memset's own stack is not in it. Fails over
# DOORSEDGE_STACK of include/doorsedge.h, on a recursion, on a call through a register or a stack lowered otherwise, and
# where a symbol from outside is another than memset. A jump by a table is none of these if the table is the function's own
# and each of its places lies in the function.
set -eu
cd "$(dirname "$0")/.."
. tests/processor.sh
archive=${1:-${DOORSEDGE_ARCHIVE:-target/staticlib}/libhost.a}
[ -f "$archive" ] || { echo "stack-use: $archive is missing: make it with tools/archive" >&2; exit 1; }
most=$(awk '$1 == "#define" && $2 == "DOORSEDGE_STACK" { print $3 }' include/doorsedge.h)
[ -n "$most" ] || { echo "stack-use: include/doorsedge.h has no DOORSEDGE_STACK" >&2; exit 1; }

outside=$("${NM:-nm}" -u "$archive" | awk '$1 == "U" { print $2 }' | sort -u)
[ "$outside" = memset ] || { echo "stack-use: symbols from outside are not memset alone:" $outside >&2; exit 1; }

tables=$("${OBJDUMP:-objdump}" -r "$archive" | awk '
    /^RELOCATION RECORDS FOR/ { of = $4; if (!sub(/^\[\.rodata\./, "", of)) of = ""; sub(/\]:$/, "", of); next }
    of != "" && $2 ~ /^R_/ { to = $3; sub(/^\.text\./, "", to); sub(/[-+]0x[0-9a-f]+$/, "", to); read[of] = 1; if (to != of) out[of] = 1 }
    END { for (of in read) if (!(of in out)) print of }')

"${OBJDUMP:-objdump}" -dr --no-show-raw-insn "$archive" | awk -v most="$most" -v tables="$tables" '
    BEGIN { n = split(tables, names, "\n"); for (i = 1; i <= n; i++) table[names[i]] = 1 }
    function number(text,   value, i) { # $0x1a8 as a decimal
        sub(/^[^$]*\$0x/, "", text); sub(/,.*/, "", text)
        for (i = 1; i <= length(text); i++) value = value * 16 + index("0123456789abcdef", substr(text, i, 1)) - 1
        return value
    }
    function wrong(what) { print "stack-use: " name ": " what; bad = 1 }
    # the most that a call of this function takes, its return address included
    function depth(of,   deepest, i, n, to, under) {
        if (of in known) return known[of]
        if (of in open) { name = of; wrong("a recursion"); return 0 }
        open[of] = 1
        n = split(calls[of], to, "\n")
        for (i = 1; i <= n; i++) if (to[i] in own) { under = depth(to[i]); if (under > deepest) deepest = under }
        delete open[of]
        return known[of] = own[of] + 8 + (calls[of] ? deepest : 128)
    }
    function called(to) { sub(/^\.text\./, "", to); sub(/[-+]0x[0-9a-f]+$/, "", to); calls[name] = calls[name] "\n" to; met[to] = name }
    # a call whose address is filled in already: the next line is no relocation of it
    near != "" { if ($2 !~ /^R_/) called(near); near = "" }
    /^[0-9a-f]+ <.*>:$/ { name = $2; gsub(/^<|>:$/, "", name); own[name] = 0; next }
    $2 ~ /^push/ { own[name] += 8; next }
    $2 == "sub" && $3 ~ /,%rsp$/ { if ($3 ~ /^\$0x/) own[name] += number($3); else wrong("a stack lowered by " $0); next }
    $2 ~ /^(and|lea|mov|enter)/ && $3 ~ /,%rsp$/ { wrong("a stack changed by " $0) }
    $2 == "jmp" && $3 ~ /^\*%/ && (name in table) { next }
    $2 ~ /^(call|j)/ && $3 ~ /^\*/ { wrong("a call through a register: " $0) }
    $2 ~ /^(call|j)/ && $4 ~ /^</ { near = $4; gsub(/[<>]/, "", near); if ($2 !~ /^call/ && index(near "+", name "+") == 1) near = "" }
    $2 == "R_X86_64_PLT32" || $3 ~ /^\.text\./ { called($3); next }
    $2 ~ /^R_/ && $3 !~ /^\.(L|rodata)/ { wrong("an address that is not read here: " $0) }
    END {
        for (to in met) if (!(to in own) && to != "memset") { name = met[to]; wrong("a call of " to) }
        for (of in own) if (of ~ /^doorsedge_/) {
            entries++
            bytes = depth(of)
            if (bytes > deepest) { deepest = bytes; deep = of }
            if (!least || bytes < least) { least = bytes; shallow = of }
        }
        if (!entries) { print "stack-use: no entry is in the archive"; exit 1 }
        print "stack-use: " entries " entries take " least " (" shallow ") to " deepest " (" deep ") bytes of stack; from outside only memset"
        if (deepest > most) { print "stack-use: more than DOORSEDGE_STACK, " most; bad = 1 }
        exit bad
    }'
