"""Random words of code, and programs of them, for random_runs.py and code_runs.py."""

from instructions import ILLEGAL, decode


def some_word(r, kinds=100):
    """A word of code: mostly arithmetic on few registers, so that sources are in flight; some of
    everything else, unless only the first `kinds` of a hundred kinds are wanted."""
    rd, rs1, rs2 = (r.choice((0, 5, 6, 7, 10, 11, 17)) for _ in range(3))
    fields = rs2 << 20 | rs1 << 15 | rd << 7
    kind = r.randrange(kinds)
    if kind < 30:
        immediate = r.choice((0, 1, 2, 5, 93, 0x7FF, 0x800, 0xFFF, r.randrange(4096)))
        return immediate << 20 | rs1 << 15 | rd << 7 | r.choice((0, 2, 3, 4, 6, 7)) << 12 | 0x13
    if kind < 45:
        return fields | r.choice((0, 0, 32)) << 25 | r.randrange(8) << 12 | 0x33
    if kind < 57:
        return fields | 1 << 25 | r.randrange(8) << 12 | 0x33
    if kind < 60:
        return r.choice((0, 32)) << 25 | fields | r.choice((1, 5)) << 12 | 0x13
    if kind < 66:
        return r.randrange(1 << 20) << 12 | rd << 7 | r.choice((0x37, 0x17))
    if kind < 78:
        to = r.choice((-12, -8, -4, 4, 8, 8, 12, 16, 2))
        return branch(r.choice((0, 1, 4, 5, 6, 7)), rs1, rs2, to)
    if kind < 83:
        return jump(rd, r.choice((-8, -4, 4, 8, 12, 6)))
    if kind < 86:
        return r.choice((0, 4, 1, 0x800)) << 20 | rs1 << 15 | rd << 7 | 0x67
    if kind < 91:
        return r.choice((0x05D00893, 0x00100893, 0x00000513, 0x00100513))
    if kind < 95:
        return 0x00000073
    if kind < 96:
        return r.choice((0x00100073, 0x0FF0000F, 0, 0xFFFFFFFF))
    if kind < 99:
        rest = r.choice((0x03, 0x23, 0x2F, 0x1000002F, 0x1800002F))
        return fields | r.choice((0, 1, 2)) << 12 | rest
    return r.randrange(1 << 32)


# auipc x8,0; addi x9,x8,256: where the words begin that all harts load and store.
TO_MEMORY = [0x00000417, 0x10040493]


def some_access(r):
    """A word that loads, stores or is an atomic: of two words that all harts share, as x9 has their
    address; now and then misaligned, of the code, or far away."""
    rd, rs2 = r.choice((0, 5, 6, 7, 10, 11, 17)), r.choice((0, 5, 6, 7, 10, 11))
    base = 9 if r.random() < 0.99 else r.choice((0, 8, 10))
    kind, place = r.randrange(100), r.choice((0, 0, 4, 4, 1, 2, 3, 6))
    size = r.choice((0, 1, 2, 2))
    offset = place if r.random() < 0.02 else place >> size << size
    if kind < 40:
        extends = r.choice((0, 4)) if size < 2 else 0
        return offset << 20 | base << 15 | (size | extends) << 12 | rd << 7 | 0x03
    if kind < 75:
        return rs2 << 20 | base << 15 | size << 12 | offset << 7 | 0x23
    if kind < 84:
        return base << 15 | rd << 7 | 0x1000202F
    fields = rs2 << 20 | base << 15 | rd << 7 | r.randrange(4) << 25 | 0x202F
    row = 3 if kind < 92 else r.choice((0, 1, 4, 8, 12, 16, 20, 24, 28))
    return row << 27 | fields


def some_code(r):
    """The words of a program. Every second one has many words that touch memory, few jumps and no
    illegal words, and begins again behind its last word."""
    if r.random() < 0.5:
        return [some_word(r) for _ in range(r.choice((1, 3, 6, 12, 24)))]
    count, share, kinds = r.choice((6, 12, 24, 40)), r.choice((0.5, 0.8)), r.choice((60, 60, 90))
    words = []
    while len(words) < count:
        word = some_access(r) if r.random() < share else some_word(r, kinds)
        words += [] if decode(word) is ILLEGAL else [word]
    return TO_MEMORY + words + [jump(0, -4 * count)]


def branch(op, rs1, rs2, to):
    to &= 0x1FFF
    high = (to >> 12) << 6 | to >> 5 & 63
    low = (to >> 1 & 15) << 1 | to >> 11 & 1
    return high << 25 | rs2 << 20 | rs1 << 15 | op << 12 | low << 7 | 0x63


def jump(rd, to):
    to &= 0x1FFFFF
    high = (to >> 20) << 19 | (to >> 1 & 1023) << 9 | (to >> 11 & 1) << 8 | to >> 12 & 255
    return high << 12 | rd << 7 | 0x6F
