#!/usr/bin/env python3
"""Holds a log of retirements against the plain machine: tools/retirements.py IMAGE LOG [--config FILE] [--smtsim PROGRAM]

LOG has a line for each instruction that retired, of all harts in the order of retirement, as Spike logs commits (`--log-commits`):

    core   0: 3 0x80000000 (0x00500513) x10 0x00000005
    core   1: 3 0x80000010 (0x0062a023) mem 0x80001000 0x00000007

The plain machine makes the steps of these harts in this order, and the first line that says something else is named, with what differs. What
a line leaves out (a register, an access) isn't compared; so an instruction that a log has no line for has to be left out of the whole log.
With --print LOG is an order of harts in place of a log (docs/FORMATS.md), and its retirements are printed in that form.
Ends with 0 where all lines agree, with 1 where one doesn't, and with 2 where the words, the log or the program are no such ones.
"""

import argparse
import os
import re
import subprocess
import sys
import tempfile

ROOT = os.path.join(os.path.dirname(os.path.abspath(__file__)), "..")
LINE = re.compile(r"core +(\d+): +\d+ +0x([0-9a-f]+) +\(0x([0-9a-f]+)\)(.*)")
REGISTER = re.compile(r" x(\d+) +0x([0-9a-f]+)")
WRITE = re.compile(r" mem +0x([0-9a-f]+) +0x([0-9a-f]+)")


def fail(words):
    print(f"retirements.py: {words}", file=sys.stderr)
    sys.exit(2)


class Logged:
    """What one line of a log says: its hart, and the parts that it has, as numbers."""

    def __init__(self, number, text):
        found = LINE.fullmatch(text)
        if found is None:
            fail(f"line {number} is no retirement: {text[:80]}")
        self.hart = int(found[1])
        self.parts = {"pc": int(found[2], 16), "word": int(found[3], 16)}
        register, write = REGISTER.search(found[4]), WRITE.search(found[4])
        if register:
            self.parts["register"], self.parts["value"] = int(register[1]), int(register[2], 16)
        if write:
            self.parts["address written"], self.parts["number written"] = int(write[1], 16), int(write[2], 16)


class Retired:
    """A record of the plain machine: hart, pc, word, value, next, address written, number written, byte put out."""

    def __init__(self, record):
        hart, pc, word, value, _, address, written, _ = record.split(" ")
        self.hart = int(hart)
        self.parts = {"pc": int(pc, 16), "word": int(word, 16)}
        if value != "-":
            self.parts["register"], self.parts["value"] = int(word, 16) >> 7 & 31, int(value, 16)
        if address != "-":
            self.parts["address written"], self.parts["number written"] = int(address, 16), int(written, 16)
        self.digits = len(written)

    def __str__(self):
        has = self.parts
        text = f"core {self.hart:3d}: 3 0x{has['pc']:08x} (0x{has['word']:08x})"
        if "value" in has:
            text += f" x{has['register']:<2d} 0x{has['value']:08x}"
        if "address written" in has:
            text += f" mem 0x{has['address written']:08x} 0x{has['number written']:0{self.digits}x}"
        return text


def retired_by(words, order):
    """The records of the plain machine in an order of harts, and what it says where it refuses it."""
    with tempfile.NamedTemporaryFile("w", suffix=".order") as file:
        file.write(order)
        file.flush()
        config = ["--config", words.config] if words.config else []
        made = subprocess.run([words.smtsim, "plain", words.image, file.name, "--records", *config], capture_output=True, text=True)
    records = [Retired(line) for line in made.stdout.splitlines() if line[:1].isdigit()]
    return records, made.stderr.strip()


def shown(part, number):
    return "nothing" if number is None else str(number) if part == "register" else f"{number:08x}"


def main():
    reader = argparse.ArgumentParser(description=__doc__, formatter_class=argparse.RawDescriptionHelpFormatter)
    reader.add_argument("image")
    reader.add_argument("log")
    reader.add_argument("--config")
    reader.add_argument("--smtsim", default=os.path.join(ROOT, "smtsim"))
    reader.add_argument("--print", action="store_true", dest="prints")
    words = reader.parse_args()
    try:
        with open(words.log, encoding="utf-8") as file:
            text = file.read()
    except (OSError, UnicodeDecodeError) as why:
        fail(f"{words.log}: {why}")
    if words.prints:
        records, refused = retired_by(words, text)
        if refused:
            fail(refused)
        print("".join(f"{record}\n" for record in records), end="")
        return 0
    logged = [Logged(number, line) for number, line in enumerate(text.splitlines(), 1)]
    records, refused = retired_by(words, "\n".join(str(line.hart) for line in logged))
    absent = None
    if refused:
        # A place is counted from 0, and of a refused order nothing is printed: so the lines before it are an order of their own.
        order = re.fullmatch(r"smtsim: order (\d+) refused ([134])", refused)
        if order is None:
            fail(refused)
        place, why = int(order[1]), {"1": "has ended or stopped before", "3": "isn't there", "4": "is no hart"}[order[2]]
        absent = f"line {place + 1}: hart {logged[place].hart} {why}"
        logged = logged[:place]
        records, _ = retired_by(words, "\n".join(str(line.hart) for line in logged))
    for number, (line, record) in enumerate(zip(logged, records), 1):
        for part, says in line.parts.items():
            if record.parts.get(part) != says:
                print(f"line {number}: {part}: the log says {shown(part, says)}, the plain machine {shown(part, record.parts.get(part))}")
                return 1
    if absent:
        print(absent)
        return 1
    print(f"{len(logged)} retirements, each as the plain machine makes it")
    return 0


if __name__ == "__main__":
    sys.exit(main())
