"""ELF images: the checks of docs/FORMATS.md in their order, and a small builder of images."""

import struct

BASE = 0x80000000
X, W, R = 1, 2, 4


class Image:
    def __init__(self, ram, entry, segments):
        self.ram, self.entry, self.segments = ram, entry, segments  # (address, bytes, flags) each
        self.code, self.code_bytes, flags = next((a, b, f) for a, b, f in segments if f & X)
        self.is_writable = bool(flags & W)

    def has_word(self, pc):
        """There is a word of the code at a pc, whatever memory has there."""
        return pc % 4 == 0 and self.code <= pc and pc + 4 <= self.code + len(self.code_bytes)

    def word(self, pc):
        """The word that the image has at a pc, None where there is none."""
        at = pc - self.code
        return int.from_bytes(self.code_bytes[at : at + 4], "little") if self.has_word(pc) else None

    def byte(self, address):
        for start, data, _ in self.segments:
            if start <= address < start + len(data):
                return data[address - start]
        return 0

    def in_ram(self, address, n):
        return BASE <= address and address + n <= BASE + self.ram

    def touches_fixed_code(self, address, n):
        """One of the bytes is of code that may not be written."""
        if self.is_writable:
            return False
        return address < self.code + len(self.code_bytes) and self.code < address + n


def load(file, ram):
    """The image of a file, or the number of the first check that refuses it."""
    if len(file) < 52:
        return 1
    half = lambda at: int.from_bytes(file[at : at + 2], "little")
    word = lambda at: int.from_bytes(file[at : at + 4], "little")
    if file[:4] != b"\x7fELF":
        return 2
    if file[4] != 1:
        return 3
    if file[5] != 1:
        return 4
    if file[6] != 1 or word(20) != 1:
        return 5
    if half(16) != 2:
        return 6
    if half(18) != 243:
        return 7
    if half(40) != 52 or half(42) != 32:
        return 8
    table, count = word(28), half(44)
    if table + 32 * count > len(file):
        return 9
    headers = [struct.unpack_from("<8I", file, table + 32 * k) for k in range(count)]
    loadable = [(h[1], h[2], h[4], h[5], h[6]) for h in headers if h[0] == 1]
    if not 1 <= len(loadable) <= 8:
        return 10
    if any(offset + in_file > len(file) for offset, _, in_file, _, _ in loadable):
        return 11
    if any(size == 0 or in_file > size for _, _, in_file, size, _ in loadable):
        return 12
    if any(at < BASE or at + size > BASE + ram for _, at, _, size, _ in loadable):
        return 13
    spans = sorted((at, at + size) for _, at, _, size, _ in loadable)
    if any(left[1] > right[0] for left, right in zip(spans, spans[1:])):
        return 14
    code = [(at, size) for _, at, _, size, flags in loadable if flags & X]
    if len(code) != 1:
        return 15
    at, size = code[0]
    if at % 4 or size % 4:
        return 16
    entry = word(24)
    if entry % 4 or not at <= entry < at + size:
        return 17
    segments = [
        (start, file[offset : offset + in_file] + bytes(size - in_file), flags)
        for offset, start, in_file, size, flags in loadable
    ]
    return Image(ram, entry, sorted(segments))


def build(words, flags=R | X, entry=BASE, at=BASE, size=None, more=()):
    """A file with one segment of code and further segments (address, bytes, flags, size)."""
    code = b"".join(word.to_bytes(4, "little") for word in words)
    segments = [(at, code, flags, len(code) if size is None else size), *more]
    head = b"\x7fELF\1\1\1".ljust(16, b"\0") + struct.pack(
        "<HHIIIIIHHHHHH", 2, 243, 1, entry, 52, 0, 0, 52, 32, len(segments), 0, 0, 0
    )
    table, body, offset = b"", b"", 52 + 32 * len(segments)
    for where, data, kind, length in segments:
        place = offset + len(body)
        table += struct.pack("<8I", 1, place, where, where, len(data), length, kind, 1)
        body += data
    return head + table + body
