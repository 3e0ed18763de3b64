#!/bin/sh
# Makes sort.elf, primes.elf, search.elf and library.elf of their sources, for the simulator. Debian's
# gcc-riscv64-unknown-elf and binutils-riscv64-unknown-elf are needed, and picolibc-riscv64-unknown-elf for the last.
set -eu
cd "$(dirname "$0")"
work=$(mktemp -d)
trap 'rm -rf "$work"' EXIT
riscv64-unknown-elf-as -march=rv32im -mabi=ilp32 -o "$work/start.o" ../start/start.s
for program in sort primes search; do
    riscv64-unknown-elf-gcc -march=rv32im -mabi=ilp32 -std=c11 -I ../start -Wall -Wextra -Werror -O2 -ffreestanding \
        -fno-tree-loop-distribute-patterns -c -o "$work/$program.o" "$program.c"
    riscv64-unknown-elf-ld -m elf32lriscv -z max-page-size=4 --build-id=none --discard-locals -T ../start/program.ld \
        -o "$program.elf" "$work/start.o" "$work/$program.o"
    chmod 644 "$program.elf"
done
TOOLS=gnu CFLAGS=-Werror ../start/image.sh --libc library.c library.elf
chmod 644 library.elf
