"""What a litmus test names in memory: locations of all types and arrays, and addresses. A part of litmus.py.

What is looked at in memory is the name of a location, or `x[1]`.
"""

from typing import NamedTuple

from litmus_words import SUBSET, TOO_LARGE, TYPES, Refused

MOST_BYTES = 256
RAM = 0x80000000
NO_ELEMENT = "an element that isn't there"
UNDECLARED = "a location that is never declared"


class Number(NamedTuple):
    """A number in memory: its first byte, behind the first of all locations, its size in bytes, and whether it has a sign."""

    byte: int
    size: int
    signed: bool


class Declared(NamedTuple):
    """A location, or an array of so many elements (None: it is none)."""

    byte: int
    size: int
    signed: bool
    elements: object

    @property
    def bytes(self):
        return self.size * (1 if self.elements is None else self.elements)

    def numbers(self, name):
        """What can be looked at of it, with its number."""
        if self.elements is None:
            yield name, Number(self.byte, self.size, self.signed)
        for k in range(self.elements or 0):
            yield f"{name}[{k}]", Number(self.byte + k * self.size, self.size, self.signed)


class Address(NamedTuple):
    """The address of a byte of the locations, as it is written in a condition."""

    byte: int


def is_mark(word, text):
    return word.kind == "mark" and word.text == text


def declarations(words):
    """The size, the sign and the elements of each name that an entry of the braces declares; the first one counts."""
    found, entry = {}, []
    for word in [*words, None]:
        if word is not None and not is_mark(word, ";"):
            entry.append(word)
            continue
        kind, elements = TYPES["int"], None
        if entry and entry[0].kind == "mark" and entry[0].text in TYPES:
            kind = TYPES[entry.pop(0).text]
        wrapped = False
        for mark in "*[":
            if entry and is_mark(entry[0], mark):
                del entry[0]
                kind, wrapped = (TYPES["int"] if mark == "*" else kind), True
        if entry and entry[0].kind == "name":
            if not wrapped and len(entry) > 2 and is_mark(entry[1], "[") and entry[2].kind == "number":
                elements = entry[2].text
            found.setdefault(entry[0].text, (*kind, elements))
        entry = []
    return found


def laid_out(words):
    """What each name in the braces is, in the order in which they come first: each begins a word."""
    found, byte, kinds = {}, 0, declarations(words)
    for word in words:
        if word.kind == "name" and word.text not in found:
            if "." in word.text:
                raise Refused(word.at, SUBSET)
            one = Declared(byte, *kinds.get(word.text, (*TYPES["int"], None)))
            if byte == MOST_BYTES or byte + one.bytes > MOST_BYTES:
                raise Refused(word.at, "more than 64 words of locations")
            found[word.text] = one
            byte = -(-(byte + one.bytes) // 4) * 4
    return found


def words_in(declared):
    """How many words they have together."""
    return max((-(-(one.byte + one.bytes) // 4) for one in declared.values()), default=0)


def take_name(reader, declared):
    word = reader.take_kind("name")
    if word.text not in declared:
        raise Refused(word.at, UNDECLARED)
    return word.text


def take_index(reader, one):
    """An index in brackets."""
    at = reader.at()
    reader.take_mark("[")
    if one.elements is None:
        raise Refused(at, SUBSET)
    at, index = reader.at(), reader.take_kind("number").text
    if index >= one.elements:
        raise Refused(at, NO_ELEMENT)
    reader.take_mark("]")
    return index


def take_address(reader, declared):
    """`x`, `x+4` or `x[1]`."""
    one = declared[take_name(reader, declared)]
    if reader.take_if("+"):
        at, offset = reader.at(), reader.take_kind("number").text
        if offset >= one.bytes:
            raise Refused(at, NO_ELEMENT)
        return Address(one.byte + offset)
    if reader.is_mark("["):
        return Address(one.byte + one.size * take_index(reader, one))
    return Address(one.byte)


def take_looked_at(reader, declared):
    """`x`, `[x]` or `x[1]`."""
    wrapped, at = reader.take_if("["), reader.at()
    name = take_name(reader, declared)
    one = declared[name]
    if not wrapped and reader.is_mark("["):
        return f"{name}[{take_index(reader, one)}]"
    if one.elements is not None:
        raise Refused(at, "an array where a number is wanted")
    if wrapped:
        reader.take_mark("]")
    return name


def take_value(reader, declared, size=4):
    """A number of so many bytes, with a sign or without, or an address, which has four."""
    word = reader.peek()
    if word is not None and word.kind == "name":
        if size < 4 and word.text in declared:
            raise Refused(word.at, "an address in a byte or a half")
        return take_address(reader, declared)
    return reader.take_number(-(2 ** (8 * size - 1)), 2 ** (8 * size) - 1)


def take_pointed(reader, declared, size):
    """What a pointer to numbers of so many bytes is given."""
    word = reader.peek()
    if word is not None and word.kind == "name" and word.text in declared and declared[word.text].size != size:
        raise Refused(word.at, "a pointer to numbers of another size")
    return take_value(reader, declared)


def address_text(declared, byte):
    """The name of what is there, and how many bytes behind its begin."""
    name = max((name for name in declared if declared[name].byte <= byte), key=lambda name: declared[name].byte)
    return name + (f"+{byte - declared[name].byte}" if byte > declared[name].byte else "")


def number_text(declared, number, size=4, signed=True):
    """A number of so many bytes as it is shown."""
    if RAM <= number < RAM + 4 * words_in(declared):
        return address_text(declared, number - RAM)
    return str(number - (1 << 8 * size) if signed and number >= 1 << 8 * size - 1 else number)
