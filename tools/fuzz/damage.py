"""Damage to a file: of its bytes, or, as its name says, of a header's fields or of the words of a text."""

import re

BYTES = (0, 1, 9, 10, 13, 32, 34, 42, 45, 46, 48, 57, 61, 65, 127, 128, 255)
NUMBERS = (0, 1, 2, 3, 4, 5, 7, 8, 32, 51, 52, 53, 84, 256, 4095, 4096, 65535, 65536)
NUMBERS += (2**31 - 1, 2**31, 2**31 + 256, 2**32 - 1)
WORDS = (b"", b"-", b"0", b"00", b"-1", b"16", b"256", b"4294967296", b"F0*100001")
WORDS += (b"15", b"17", b"32", b"33", b"504", b"528", b"529", b"1024", b"config", b"smt-trace 1")
WORDS += (b"smt-trace 2", b"smt-trace 3\nconfig", b"G", b"T", b"alu", b"fetch", b"F31", b"F32", b"D0.15", b"D0.16")
WORDS += (b"Z", b"\xff", b"\xc3\xa9", b"[", b"= 1")
LITMUS_WORDS = rb"""
; | = : , ( ) [ ] { } ~ /\ \/ => <=> != - (* *) " % < > !
not true exists forall locations filter int P0 P1 P9 P15 P16 L0 L9 x w x0 x5 x32 a0 a.b
0 1 01 7 0x 0xA 0XfF 00x1 0xffffffff 4294967296 2048 1048576
+ * int8_t uint8_t short int16_t la
nop lw sw sb lhu li lui mulh lr.w.aqrl lr.w.rl.aq sc.w amoadd amomaxu.w.rl slli srai beq bnez bgt blez j fence fence.i fadd.s
""".split()


def cut(r, data):
    return data[: r.randrange(len(data) + 1)]


def without(r, data):
    first = r.randrange(len(data) + 1)
    return data[:first] + data[first + r.choice((1, 1, 2, 8, 40)) :]


def doubled(r, data):
    first = r.randrange(len(data) + 1)
    last = first + r.choice((1, 4, 32, 100))
    return data[:last] + data[first:]


def flipped(r, data):
    if not data:
        return b"\0"
    at = r.randrange(len(data))
    return data[:at] + bytes([data[at] ^ 1 << r.randrange(8)]) + data[at + 1 :]


def other_byte(r, data):
    at = r.randrange(len(data) + 1)
    return data[:at] + bytes([r.choice(BYTES)]) + data[at + r.choice((0, 1)) :]


def other_field(r, data):
    """Another number in one of the headers of an ELF file."""
    size = r.choice((1, 2, 4))
    at = r.randrange(0, max(1, min(len(data), 148) - size), size)
    number = r.choice(NUMBERS) if r.random() < 0.7 else r.getrandbits(32)
    return data[:at] + (number % 256**size).to_bytes(size, "little") + data[at + size :]


def other_word(r, data):
    words = data.split(b" ")
    at = r.randrange(len(words))
    words[at] = r.choice(WORDS)
    return b" ".join(words)


def other_litmus_words(r, data):
    """Another word in a litmus test, also one that stands elsewhere in it, one more, one less, or two in each other's
    place."""
    parts = re.findall(rb"\s+|[\w.]+|[^\w\s]", data) or [b""]
    at, word = r.randrange(len(parts)), r.choice(LITMUS_WORDS if r.random() < 0.6 else parts)
    way = r.randrange(4)
    if way == 3:
        other = r.randrange(len(parts))
        parts[at], parts[other] = parts[other], parts[at]
    else:
        parts[at : at + (way > 0)] = [] if way == 2 else [word]
    return b"".join(parts)


def other_lines(r, data):
    lines = data.split(b"\n")
    one, other = r.randrange(len(lines)), r.randrange(len(lines))
    lines[one], lines[other] = lines[other], lines[one]
    if r.random() < 0.3:
        lines.insert(one, lines[other])
    return b"\n".join(lines)


def damaged(r, name, data):
    """A file with one to three damages."""
    ways = [cut, without, doubled, flipped, other_byte]
    ways += [other_field] * 6 if name.endswith(".elf") else [other_word, other_word, other_lines]
    ways += [other_litmus_words] * 12 if name.endswith(".litmus") else []
    for _ in range(r.choice((1, 1, 1, 2, 3))):
        data = r.choice(ways)(r, data)
    return data
