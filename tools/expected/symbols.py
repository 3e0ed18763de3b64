"""The names in an ELF file's table of symbols, as docs/FORMATS.md says what is a name of a program."""

import struct
from dataclasses import dataclass

LABEL, OBJECT, FUNCTION, FILE = 0, 1, 2, 4


@dataclass
class Name:
    """A name of the program, with the file that the table names before it, where it is a local one."""

    name: bytes
    address: int
    size: int
    kind: int
    is_global: bool
    file: bytes | None


class Damaged(Exception):
    """The table, or what says where it lies, is not whole."""


def sections(file):
    """Type, offset, size and link of each section."""
    offset, size, count = struct.unpack_from("<I", file, 32)[0], *struct.unpack_from("<HH", file, 46)
    if count and size != 40 or offset + 40 * count > len(file):
        raise Damaged
    for k in range(count):
        _, kind, _, _, at, length, link = struct.unpack_from("<7I", file, offset + 40 * k)
        yield kind, at, length, link


def names(file):
    """Each name of the program: its text, address, size, kind, and whether it is global. None where there is no table."""
    found = names_with_files(file)
    return None if found is None else [(one.name, one.address, one.size, one.kind, one.is_global) for one in found]


def names_with_files(file):
    """Each name of the program. None where there is no table."""
    headers = list(sections(file))
    found = [header for header in headers if header[0] == 2]
    if not found:
        return None
    _, at, length, link = found[0]
    if at + length > len(file) or length % 16 or link >= len(headers):
        raise Damaged
    kind, texts_at, texts_length, _ = headers[link]
    texts = file[texts_at : texts_at + texts_length]
    if kind != 3 or texts_at + texts_length > len(file) or not texts or texts[-1]:
        raise Damaged
    out, source = [], None
    for place in range(at, at + length, 16):
        name, address, size, info, _, section = struct.unpack_from("<IIIBBH", file, place)
        text = texts[name:].split(b"\0")[0]
        if info % 16 == FILE:
            source = text
        if info % 16 <= FUNCTION and 1 <= section < 0xFF00 and text and text[:1] != b"$" and text[:2] != b".L":
            is_global = 1 <= info // 16 <= 2
            out.append(Name(text, address, size, info % 16, is_global, None if is_global else source))
    return out


def name_at(found, address):
    """The name that covers an address, with how many bytes it is behind its start; the best first, of equals the first."""
    best = None
    for text, start, size, kind, is_global in found:
        covers = start <= address < start + size if size else address == start
        rank = 2 * (kind == LABEL) + (not is_global)
        if covers and (best is None or rank < best[0]):
            best = rank, text, address - start
    return best and best[1:]
