#!/bin/sh
# Makes the images of their sources. Debian's binutils-riscv64-unknown-elf is needed.
set -eu
cd "$(dirname "$0")"
work=$(mktemp -d)
trap 'rm -rf "$work"' EXIT
for program in swap reserve ticket barrier broken; do
    riscv64-unknown-elf-as -march=rv32ima -mabi=ilp32 -o "$work/$program.o" "$program.s"
    riscv64-unknown-elf-ld -m elf32lriscv -z max-page-size=4 -T ../list/link.ld --discard-locals -o "$program.elf" "$work/$program.o"
    chmod 644 "$program.elf"
done
