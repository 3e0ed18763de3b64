#!/bin/sh
# Makes the images of their sources; and, from the images alone, the outcomes that an order of whole instructions can have
# (outcomes.out), an order for each, and the script of that order. The scripts whose names say more than an outcome are written by
# hand, and so are their orders. Debian's binutils-riscv64-unknown-elf and Python 3.11 are needed; it takes a minute or two.
set -eu
cd "$(dirname "$0")"
work=$(mktemp -d)
trap 'rm -rf "$work"' EXIT
tools=../../tools/expected
: >outcomes.out
for test in message_passing store_buffering load_buffering coherent_reads independent_reads; do
    case $test in
    independent_reads) harts=4 config=four.toml ;;
    *) harts=2 config=two.toml ;;
    esac
    riscv64-unknown-elf-as -march=rv32im -mabi=ilp32 -o "$work/$test.o" "$test.s"
    riscv64-unknown-elf-ld -m elf32lriscv -z max-page-size=4 -T ../list/link.ld --discard-locals -o "$test.elf" "$work/$test.o"
    chmod 644 "$test.elf"
    python3 "$tools/outcomes.py" "$test.elf" "$harts" >"$work/outcomes"
    sed "s/^/$test: /; s/; .*//" "$work/outcomes" >>outcomes.out
    while IFS=';' read -r outcome order; do
        name=${test}_$(printf '%s' "$outcome" | tr -cd 0-9)
        printf '%s\n' "${order# }" >"$name.order"
        python3 "$tools/schedule.py" "$test.elf" "$name.order" "$config" >"$name.script"
    done <"$work/outcomes"
done
