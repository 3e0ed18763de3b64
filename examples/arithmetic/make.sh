#!/bin/sh
# Makes primes.elf, gcd.elf and random.elf of their sources, and looks that each is one segment of code (flags R and X)
# without any instruction that touches memory. Debian's gcc-riscv64-unknown-elf and binutils-riscv64-unknown-elf are needed.
set -eu
cd "$(dirname "$0")"
for program in primes gcd random; do
    riscv64-unknown-elf-gcc -march=rv32im -mabi=ilp32 -std=c11 -Wall -Wextra -Werror -O2 \
        -ffreestanding -nostdlib -nostartfiles \
        -Wl,-m,elf32lriscv -Wl,-z,max-page-size=4 -Wl,--build-id=none -Wl,--discard-locals -Wl,-T,../list/link.ld \
        -o "$program.elf" "$program.c"
    chmod 644 "$program.elf"
    if riscv64-unknown-elf-objdump -d -M no-aliases,numeric "$program.elf" |
        grep -E '[[:space:]]([ls][bhw]u?|lr\.w|sc\.w|amo[a-z]+\.w)(\.aq|\.rl|\.aqrl)?[[:space:]]'; then
        echo "make.sh: $program.elf touches memory" >&2
        exit 1
    fi
    segments=$(riscv64-unknown-elf-readelf -lW "$program.elf" | awk '$1 == "LOAD" { print $7 $8 }')
    if [ "$segments" != RE ]; then
        echo "make.sh: $program.elf isn't one segment of code" >&2
        exit 1
    fi
done
