#!/bin/sh
# Compares what `smtsim list` prints of an image with GNU's disassembly of it: no output and status 0 where they agree.
# Three habits of the disassembler are changed: the amount of a shift to decimal, the upper part of a word to five digits,
# and its remarks behind the operands are left out.
set -eu
root=$(cd "$(dirname "$0")/../.." && pwd)
ours=$(mktemp)
theirs=$(mktemp)
bare=$(mktemp)
trap 'rm -f "$ours" "$theirs" "$bare"' EXIT
"$root/smtsim" list "$1" >"$ours"
# Without its symbols: with them a jump's target is a name.
riscv64-unknown-elf-objcopy --strip-all "$1" "$bare"
riscv64-unknown-elf-objdump -d -M no-aliases,numeric "$bare" | awk -F '\t' '
    function number(text,    i, n) {
        n = 0
        for (i = 3; i <= length(text); i++)
            n = 16 * n + index("0123456789abcdef", substr(text, i, 1)) - 1
        return n
    }
    /^[0-9a-f]+:\t/ {
        sub(/:/, "", $1)
        gsub(/ /, "", $2)
        sub(/ *[#<].*/, "", $4)
        count = split($4, operand, ",")
        if ($3 == "slli" || $3 == "srli" || $3 == "srai")
            $4 = operand[1] "," operand[2] "," number(operand[3])
        if ($3 == "lui" || $3 == "auipc")
            $4 = operand[1] sprintf(",0x%05x", number(operand[2]))
        print $1 " " $2 " " $3 ($4 == "" ? "" : " " $4)
    }' >"$theirs"
diff "$ours" "$theirs"
