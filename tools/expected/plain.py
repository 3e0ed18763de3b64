"""The plain machine: one whole instruction of some hart at a time, on one memory.

Shares the instructions with the core model, and nothing of its pipeline.
"""

from core import digits, next_text
from instructions import ATOMIC_RESULTS, MASK, NO_WORD, SIZES, compute, decode, signed


class Plain:
    def __init__(self, made, harts):
        self.image, self.pcs = made, [made.entry] * harts
        self.registers = [[0] * 32 for _ in range(harts)]
        for h in range(harts):
            self.registers[h][10], self.registers[h][11] = h, harts
        self.memory, self.reserved = {}, [None] * harts
        self.statuses, self.output = [("going",)] * harts, []

    def going(self):
        return [h for h, status in enumerate(self.statuses) if status == ("going",)]

    def refusal(self, h):
        """Why hart h can't make a step: 3, there is no such hart; 1, it isn't going. None where it
        can."""
        if h >= len(self.pcs):
            return 3
        return None if self.statuses[h] == ("going",) else 1

    def read(self, address, n):
        found = [self.memory.get(a, self.image.byte(a)) for a in range(address, address + n)]
        return int.from_bytes(bytes(found), "little")

    def write(self, address, n, number):
        for k, byte in enumerate(number.to_bytes(n, "little")):
            self.memory[address + k] = byte
        word = address & ~3
        self.reserved = [None if held == word else held for held in self.reserved]

    def fault(self, kind, address, n):
        writes = kind in ("store", "sc", "amo")
        if address % n:
            return 6 if writes else 4
        if not self.image.in_ram(address, n):
            return 7 if writes else 5
        return 7 if writes and self.image.touches_fixed_code(address, n) else None

    def step(self, h):
        """Makes the next instruction of hart h, and gives its record."""
        pc, numbers = self.pcs[h], self.registers[h]
        word = self.read(pc, 4) if self.image.has_word(pc) else None
        i = NO_WORD if word is None else decode(word)
        c = compute(i, pc, numbers[i.rs1], numbers[i.rs2])
        n, value, write = SIZES.get(i.name, 4), c.value, None
        if i.kind != "compute":
            cause = self.fault(i.kind, c.addr, n)
            c.next = c.next if cause is None else ("s", cause)
        if c.next[0] != "p":
            self.statuses[h] = ("ended" if c.next[0] == "e" else "stopped", c.next[1])
            return self.record(h, pc, word, None, c.next, None, None)
        if i.kind in ("load", "lr", "amo"):
            value = self.read(c.addr, n)
        if i.name in ("lb", "lh"):
            value = signed(value, 8 * n) & MASK
        if i.kind == "lr":
            self.reserved[h] = c.addr
        if i.kind == "store":
            write = (c.addr, n, c.data)
        if i.kind == "amo":
            write = (c.addr, 4, ATOMIC_RESULTS[i.name](value, c.data))
        if i.kind == "sc":
            value, self.reserved[h] = int(self.reserved[h] != c.addr), None
            write = (c.addr, 4, c.data) if value == 0 else None
        if write:
            self.write(*write)
        if c.out is not None:
            self.output.append(c.out)
        self.pcs[h] = c.next[1]
        if i.rd:
            numbers[i.rd] = value
        return self.record(h, pc, word, value if i.rd else None, c.next, write, c.out)

    def record(self, h, pc, word, value, following, write, out):
        where = f"{write[0]:08x} {write[2]:0{2 * write[1]}x}" if write else "- -"
        start = f"{h} {pc:08x} {digits(word)} {digits(value)}"
        return f"{start} {next_text(following)} {where} {digits(out, 2)}"
