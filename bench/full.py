#!/usr/bin/env python3
"""Counts what an event of `step` costs where the core is full: bench/full.py [CASE ..], else every case.

Each case is an image and a script in rounds that are all alike. Instructions are those that callgrind counts, of 220 rounds less those of 20,
for an event of the history. SMTSIM names another program than that of this repository; `valgrind` is needed.
"""

import os
import subprocess
import sys
import tempfile

ROOT = os.path.dirname(os.path.dirname(os.path.abspath(__file__)))
sys.path.insert(0, f"{ROOT}/tools/expected")

from image import build

PROGRAM = os.environ.get("SMTSIM", f"{ROOT}/crates/smtsim/out/smtsim")
FEW, MANY = 20, 220
ROLES = ["fetch", "front", "retire", "alu", "mul", "mem"]


# ---- Instructions

def addi(rd, rs1, number):
    return (number & 0xFFF) << 20 | rs1 << 15 | rd << 7 | 0x13


def add(rd, rs1, rs2):
    return rs2 << 20 | rs1 << 15 | rd << 7 | 0x33


def mul(rd, rs1, rs2):
    return 1 << 25 | add(rd, rs1, rs2)


def lui(rd, number):
    return number << 12 | rd << 7 | 0x37


def lw(rd, rs1, offset):
    return offset << 20 | rs1 << 15 | 2 << 12 | rd << 7 | 0x03


def sw(rs2, rs1, offset):
    return (offset >> 5) << 25 | rs2 << 20 | rs1 << 15 | 2 << 12 | (offset & 31) << 7 | 0x23


def branch(kind, rs1, rs2, offset):
    return ((offset >> 12 & 1) << 31 | (offset >> 5 & 63) << 25 | rs2 << 20 | rs1 << 15 | kind << 12
            | (offset >> 1 & 15) << 8 | (offset >> 11 & 1) << 7 | 0x63)


def beq(rs1, rs2, offset):
    return branch(0, rs1, rs2, offset)


def bne(rs1, rs2, offset):
    return branch(1, rs1, rs2, offset)


def jump_back(words):
    """A jump over so many words backwards."""
    offset = -4 * words & 0x1FFFFF
    return (offset >> 20 & 1) << 31 | (offset >> 1 & 1023) << 21 | (offset >> 11 & 1) << 20 | (offset >> 12 & 255) << 12 | 0x6F


# ---- Scripts

def front(count, hart=0):
    """So many instructions from the fetch to the queue."""
    words = []
    while count:
        some = min(8, count)
        words += [f"F0*{some}", f"D1.{hart}*{some}", f"R1.{hart}*{some}"]
        count -= some
    return " ".join(words)


def alone(count, hart=0):
    """So many instructions one by one, from the fetch to their completion in the arithmetic unit."""
    return " ".join([f"F0 D1.{hart} R1.{hart} U3"] * count)


# Eight words and no branch that is predicted wrong; and pairs of an addition and a branch over two words, which is predicted to go on.
STRAIGHT = [addi(7, 7, 1)] * 7 + [jump_back(7)]
PAIRS = 9
ZIGZAG = [addi(7, 7, 1), beq(0, 0, 12), addi(8, 8, 1), addi(8, 8, 1)] * PAIRS + [jump_back(4 * PAIRS)]


def stuck(waiting, own):
    """Hart 0 has a multiplication that its unit holds, and so many that wait for it; hart 1 runs code of its own."""
    return [bne(10, 0, 4 * (waiting + 12)), mul(5, 5, 5)] + [add(5, 5, 5)] * (waiting + 10) + own


def get_stuck(waiting):
    """Hart 1 leaves the branch at the start, hart 0 its multiplication at the unit, and eight of hart 1 are fetched."""
    words = ["F0*16 D1.1 R1.1 U3 T2.1 D1.0*8 R1.0*8 U3 T2.0 I4 F0*8"]
    left = waiting - 6
    while left:
        some = min(8, left)
        words.append(f"F0*{some} D1.0*{some} R1.0*{some}")
        left -= some
    return " ".join(words)


def zigzag(hart, queue_is_full):
    """A pair of an addition and a branch that is predicted wrong, and the two words behind it, which are squashed."""
    ahead = f"F0*4 D1.{hart}*4"
    if queue_is_full:
        return f"{ahead} R1.{hart} U3 R1.{hart}*2 U3"
    return f"{ahead} R1.{hart}*4 U3*2"


class Case:
    def __init__(self, name, code, begin, round_, harts=1):
        self.name, self.code, self.begin, self.round, self.harts = name, code, begin, round_, harts


def cases():
    loop = [addi(5, 5, 1), add(6, 6, 5), mul(7, 6, 5), bne(5, 0, -12 & 0x1FFF)]
    yield Case("loop", loop, "", front(8) + " U3*6 U4*2 T2.0*8")
    yield Case("queue", stuck(63, STRAIGHT), get_stuck(63) + " D1.1*8", "R1.1 U3 " * 8 + "T2.1*8 F0*8 D1.1*8", 2)
    yield Case("youngest", STRAIGHT, alone(63), (alone(1) + " T2.0 ") * 8)
    accesses = [sw(7, 6, 4 * k) for k in range(16)] + [lw(8, 6, 4 * k) for k in range(16)]
    yield Case("accesses", [lui(6, 0x80001)] + accesses + [jump_back(32)], alone(1) + " T2.0", front(33) + " U5*32 U3 T2.0*33")
    behind = [mul(5, 5, 5), beq(5, 5, 4 * 63)] + [addi(7, 7, 1)] * 62 + [jump_back(64)]
    yield Case("squash", behind, "", front(64) + " U3*62 U4 U3 " + front(1) + " U3 T2.0*3")
    yield Case("zigzag", ZIGZAG, turns(0, False) * 3, turns(0, False, " T2.0"))
    yield Case("both", stuck(62, ZIGZAG), get_stuck(62) + " " + turns(1, True) * 3, turns(1, True, " T2.1"), 2)


def turns(hart, queue_is_full, retire=""):
    """A turn of the pairs and the jump back; as many of the oldest retire, where that is asked for."""
    pair = zigzag(hart, queue_is_full) + retire * 2 + " "
    return pair * PAIRS + alone(1, hart) + retire + " "


# ---- What it costs

def counted(case, rounds, folder):
    """Instructions and events of a run of so many rounds."""
    image, script, config, out = (f"{folder}/{name}" for name in ("image.elf", "script", "config.toml", "counted"))
    with open(image, "wb") as file:
        file.write(build(case.code))
    with open(script, "w", encoding="ascii") as file:
        file.write("\n".join([case.begin] + [case.round] * rounds) + "\n")
    with open(config, "w", encoding="ascii") as file:
        file.write(f"harts = {case.harts}\nqueue = 64\nextra = 256\nlimit = 16777216\n")
    words = ["valgrind", "--tool=callgrind", f"--callgrind-out-file={out}", PROGRAM, "step", image, script, "--config", config]
    done = subprocess.run(words, capture_output=True, text=True, check=False)
    lines = done.stdout.splitlines()
    idle = sum(line in ("idle", "full", "stranger", "none") for line in lines)
    if idle:
        print(f"{case.name}: {idle} asks make no event", file=sys.stderr)
    events = next(int(line.split()[1]) for line in lines if line.startswith("events "))
    collected = next(int(line.split()[-1]) for line in done.stderr.splitlines() if "Collected" in line)
    return collected, events


def main():
    wanted = sys.argv[1:]
    print(f"{'case':<10} {'instructions/event':>18} {'of the loop':>12}")
    base = None
    with tempfile.TemporaryDirectory() as folder:
        for case in cases():
            if wanted and case.name not in wanted:
                continue
            few, many = counted(case, FEW, folder), counted(case, MANY, folder)
            cost = (many[0] - few[0]) / (many[1] - few[1])
            base = base or cost
            print(f"{case.name:<10} {cost:>18.0f} {cost / base:>12.2f}", flush=True)


if __name__ == "__main__":
    main()
