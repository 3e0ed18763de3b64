"""Random programs that write their own code, for random_runs.py.

Each has a stock of words that are mostly instructions; stores, SC and AMO put them, or parts of them, over words near
and far of the one that executes, and harts write what others are about to execute.
"""

import image
from instructions import ILLEGAL, decode
from random_words import branch, jump, some_code, some_word

ADDI, FENCE_I, EXIT, PUT, ECALL = 0x13, 0x0000100F, 0x05D00893, 0x00100893, 0x00000073
# What is stored: x5, x6 and x12 have words of the stock, x7 the number that adds 1 to an immediate.
STORED = (5, 5, 6, 6, 12, 7, 10)
# auipc x8,0; lui x7,0x100; then x5, x6 and x12 of the stock, and x9, the address for SC and AMO.
HEAD = 6


def load(rd, base, offset, size=2):
    return (offset & 0xFFF) << 20 | base << 15 | size << 12 | rd << 7 | 0x03


def store(rs2, base, offset, size):
    return (offset >> 5 & 127) << 25 | rs2 << 20 | base << 15 | size << 12 | (offset & 31) << 7 | 0x23


def add(rd, rs1, number):
    return (number & 0xFFF) << 20 | rs1 << 15 | rd << 7 | ADDI


def atomic(row, rd, rs2):
    return row << 27 | rs2 << 20 | 9 << 15 | 2 << 12 | rd << 7 | 0x2F


def legal_word(r, kinds=83):
    while True:
        word = some_word(r, kinds)
        if decode(word) is not ILLEGAL:
            return word


class Maker:
    """A program while it is made: its body is `count` words from the one at the place `HEAD` on, then come a jump
    back or none, the stock, and zeros."""

    def __init__(self, r):
        self.r, self.count, self.stock = r, r.choice((4, 8, 16, 32)), r.choice((2, 4, 8))
        self.share = r.choice((0.2, 0.4, 0.7))
        self.words = [0x00000417, 0x001003B7]

    def stock_place(self):
        return 4 * (HEAD + self.count + 1 + self.r.randrange(self.stock))

    def target(self):
        """The place of a word to be written: mostly a little ahead, by the next ones more often."""
        r, here = self.r, len(self.words)
        near = here + r.choice((-3, -1, 0, 1, 1, 1, 2, 2, 3, 4, 6, 8, 12))
        place = near if r.random() < 0.7 else r.randrange(HEAD + self.count + 1 + self.stock + 2)
        return 4 * max(HEAD if r.random() < 0.9 else 0, place)

    def into_code(self):
        """A word or two that write the code, or make ready for it."""
        r, kind = self.r, self.r.randrange(100)
        rs2 = r.choice(STORED)
        if kind < 45:
            return [store(rs2, 8, self.target(), 2)]
        if kind < 53:
            return [store(rs2, 8, self.target() + r.choice((0, 2, 2)), 1)]
        if kind < 61:
            return [store(rs2, 8, self.target() + r.choice((0, 1, 2, 3, 3)), 0)]
        if kind < 72:
            return [load(r.choice((5, 6, 12)), 8, self.stock_place())]
        if kind < 80:
            return [add(9, 8, self.target())]
        if kind < 90:
            return [atomic(r.choice((0, 0, 1, 1, 1, 4, 8, 12)), r.choice((0, 10, 11)), r.choice((5, 6, 7, 7)))]
        # An LR and an SC, with something between them at times.
        between = [legal_word(r, 60)] if r.random() < 0.3 else []
        return [0x1004A52F, *between, atomic(3, r.choice((0, 11, 13)), rs2)]

    def other(self):
        r, kind = self.r, self.r.randrange(100)
        if kind < 12:
            return [FENCE_I]
        if kind < 20:
            return [load(r.choice((10, 11, 13)), 8, self.target(), r.choice((0, 1, 2)) if kind < 14 else 2)]
        if kind < 26:
            return [branch(r.choice((0, 1)), 10, 0, r.choice((8, 8, 12, 16)))]
        if kind < 30:
            return [PUT, ECALL]
        if kind < 32:
            return [EXIT, ECALL]
        return [legal_word(r, 60 if kind < 90 else 83)]

    def made(self):
        r = self.r
        self.words += [load(rd, 8, self.stock_place()) for rd in (5, 6, 12)]
        self.words += [add(9, 8, self.target())]
        while len(self.words) < HEAD + self.count:
            self.words += self.into_code() if r.random() < self.share else self.other()
        del self.words[HEAD + self.count :]
        back = 4 * (HEAD if r.random() < 0.8 else 0) - 4 * len(self.words)
        self.words.append(jump(0, back) if r.random() < 0.8 else legal_word(r))
        for _ in range(self.stock):
            word = r.choice((legal_word(r), legal_word(r, 30), store(r.choice(STORED), 8, self.target(), 2)))
            self.words.append(word if r.random() < 0.9 else some_word(r))
        return self.words


def some_image(r):
    """The bytes of an image; now and then one whose code may not be written, or an ordinary program."""
    words = Maker(r).made() if r.random() < 0.9 else some_code(r)
    flags = image.R | image.X | (image.W if r.random() < 0.95 else 0)
    return image.build(words, flags=flags, size=4 * len(words) + r.choice((0, 0, 0, 4, 64)))
