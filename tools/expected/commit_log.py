#!/usr/bin/env python3
"""Prints a log of retirements as Spike logs commits: commit_log.py IMAGE HARTS STEPS

The plain machine of this folder makes the steps, of one hart after another in an order that looks like none. Each line has the access of a
load, too, as Spike's have (`mem ADDRESS`), and an AMO's line has both of its accesses.
"""

import sys

import image
from instructions import compute, decode
from plain import Plain


def line(record, accessed):
    hart, pc, word, value, _, address, written, _ = record.split(" ")
    text = f"core {int(hart):3d}: 3 0x{pc} (0x{word})"
    if value != "-":
        text += f" x{int(word, 16) >> 7 & 31:<2d} 0x{value}"
    if accessed is not None:
        text += f" mem 0x{accessed:08x}"
    if address != "-":
        text += f" mem 0x{address} 0x{written}"
    return text


def main():
    name, harts, steps = sys.argv[1], int(sys.argv[2]), int(sys.argv[3])
    with open(name, "rb") as file:
        machine = Plain(image.load(file.read(), 1 << 20), harts)
    chosen = 1
    for _ in range(steps):
        chosen = (1103515245 * chosen + 12345) % (1 << 31)
        hart = (chosen >> 16) % harts
        pc, numbers = machine.pcs[hart], machine.registers[hart]
        i = decode(machine.read(pc, 4))
        accessed = compute(i, pc, numbers[i.rs1], numbers[i.rs2]).addr if i.kind in ("load", "lr", "amo") else None
        print(line(machine.step(hart), accessed))


if __name__ == "__main__":
    main()
