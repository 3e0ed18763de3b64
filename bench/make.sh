#!/bin/sh
# Makes the .elf files of the .s files. Debian's binutils-riscv64-unknown-elf is needed.
set -eu
cd "$(dirname "$0")"
object=$(mktemp)
trap 'rm -f "$object"' EXIT
for name in loop increment atomic waiting chain; do
    riscv64-unknown-elf-as -march=rv32ima -mabi=ilp32 -o "$object" "$name.s"
    riscv64-unknown-elf-ld -m elf32lriscv -z max-page-size=4 -T ../examples/list/link.ld --strip-all -o "$name.elf" "$object"
    chmod 644 "$name.elf"
done
riscv64-unknown-elf-as -march=rv32ima -mabi=ilp32 -o "$object" patching.s
riscv64-unknown-elf-ld -m elf32lriscv -z max-page-size=4 --no-warn-rwx-segments -T ../examples/selfmodifying/link.ld --strip-all \
    -o patching.elf "$object"
chmod 644 patching.elf
