#!/bin/sh
# Writes what each hart of the three programs puts out and ends with, as QEMU's user mode says it: PROGRAM.wanted, a line for each
# of the harts 0 to 7. The same compiled functions run there behind another start. Debian's qemu-user is needed, and what make.sh needs.
set -eu
cd "$(dirname "$0")"
work=$(mktemp -d)
trap 'rm -rf "$work"' EXIT
for program in sort primes search; do
    riscv64-unknown-elf-gcc -march=rv32im -mabi=ilp32 -std=c11 -I ../start -O2 -ffreestanding \
        -fno-tree-loop-distribute-patterns -c -o "$work/$program.o" "$program.c"
    for hart in 0 1 2 3 4 5 6 7; do
        riscv64-unknown-elf-as -march=rv32im -mabi=ilp32 --defsym HART=$hart --defsym HARTS=8 -o "$work/start.o" start_linux.s
        riscv64-unknown-elf-ld -m elf32lriscv -e _start -o "$work/$program" "$work/start.o" "$work/$program.o"
        status=0
        qemu-riscv32 "$work/$program" >"$work/out" || status=$?
        bytes=$(od -An -v -tx1 "$work/out" | tr -d ' \n')
        echo "hart $hart output ${bytes:--} ended $status"
    done >"$program.wanted"
done
