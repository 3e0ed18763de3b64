"""The files that the second judge reads: a program image, a configuration, a trace.

Written from docs/FORMATS.md and from crates/elf_image/specs, crates/sim_inputs/specs and
crates/event_text/specs. Nothing here but the limits is shared with the model of the program in this
folder.
"""

import re
import tomllib
from itertools import combinations
from typing import NamedTuple, Optional

import limits
from limits import FIRST, MOST_EVENTS, SECOND

RAM_START = 0x80000000


class Refused(Exception):
    """What the program says on standard error, and its exit status."""

    def __init__(self, said, status):
        super().__init__(said)
        self.said, self.status = said, status


# ---- The image


class Segment(NamedTuple):
    address: int
    data: bytes
    flags: int


class Image:
    def __init__(self, ram, entry, segments):
        self.ram, self.entry, self.segments = ram, entry, segments
        code = next(s for s in segments if s.flags % 2 == 1)
        self.code_start, self.code_end = code.address, code.address + len(code.data)
        self.code_writable = code.flags // 2 % 2 == 1

    def byte(self, address):
        """The byte that memory holds at the start."""
        for s in self.segments:
            if s.address <= address < s.address + len(s.data):
                return s.data[address - s.address]
        return 0

    def word_now(self, byte, pc):
        """The instruction word at a pc where memory has these bytes, None where there is none."""
        if pc % 4 != 0 or pc < self.code_start or pc + 4 > self.code_end:
            return None
        return sum(byte(pc + i) << 8 * i for i in range(4))

    def in_ram(self, address, n):
        return RAM_START <= address and address + n <= RAM_START + self.ram

    def touches_fixed_code(self, address, n):
        return not self.code_writable and max(address, self.code_start) < min(address + n, self.code_end)


class Header(NamedTuple):
    """A program header."""

    kind: int
    offset: int
    address: int
    ignored: int
    in_file: int
    in_memory: int
    flags: int
    alignment: int


def number_in(file, place, n=4):
    return int.from_bytes(file[place : place + n], "little")


def checks_of_file(file):
    """What the first checks ask of a file, from number 1 on."""
    yield len(file) >= 52
    yield file[:4] == b"\x7fELF"
    yield file[4] == 1
    yield file[5] == 1
    yield file[6] == 1 and number_in(file, 20) == 1
    yield number_in(file, 16, 2) == 2
    yield number_in(file, 18, 2) == 243
    yield number_in(file, 40, 2) == 52 and number_in(file, 42, 2) == 32
    yield number_in(file, 28) + 32 * number_in(file, 44, 2) <= len(file)


def checks_of_headers(loadable, size, entry, ram):
    """What the others ask of the loadable headers of a file of this size, from number 10 on."""
    end, code = RAM_START + ram, [h for h in loadable if h.flags % 2 == 1]
    yield 1 <= len(loadable) <= 8
    yield all(h.offset + h.in_file <= size for h in loadable)
    yield all(0 < h.in_memory >= h.in_file for h in loadable)
    yield all(RAM_START <= h.address and h.address + h.in_memory <= end for h in loadable)
    yield all(
        g.address + g.in_memory <= h.address or h.address + h.in_memory <= g.address
        for g, h in combinations(loadable, 2)
    )
    yield len(code) == 1
    yield code[0].address % 4 == 0 and code[0].in_memory % 4 == 0
    yield entry % 4 == 0 and code[0].address <= entry < code[0].address + code[0].in_memory


def image_of(file, ram):
    """The image that a file is; Refused with the number of the first check that it fails."""
    refuse_first(checks_of_file(file), 1)
    table, entry = number_in(file, 28), number_in(file, 24)
    places = range(table, table + 32 * number_in(file, 44, 2), 32)
    headers = [Header(*(number_in(file, at + i) for i in range(0, 32, 4))) for at in places]
    loadable = [h for h in headers if h.kind == 1]
    refuse_first(checks_of_headers(loadable, len(file), entry, ram), 10)
    segments = [
        Segment(h.address, file[h.offset :][: h.in_file].ljust(h.in_memory, b"\0"), h.flags % 8)
        for h in sorted(loadable, key=lambda h: h.address)
    ]
    return Image(ram, entry, segments)


def refuse_first(checks, number):
    """Refused for the first of these checks that fails, the first of which has this number."""
    for place, passed in enumerate(checks):
        if not passed:
            raise Refused(f"image refused {number + place}", 2)


# ---- The configuration


class Settings(NamedTuple):
    harts: int = 1
    extra: int = 64
    queue: int = 16
    ram: int = 65536
    limit: int = 1000000
    turns: int = 1000000000
    actors: tuple = limits.ROLES


def settings_of(text):
    """The settings that a configuration's bytes make."""
    try:
        found = tomllib.loads(text.decode("utf-8"))
    except ValueError as wrong:
        raise Refused("config refused", 2) from wrong
    for key, value in found.items():
        if key == "actors":
            right = type(value) is list and len(value) in limits.ACTORS
            right = right and all(type(role) is str and role in limits.ROLES for role in value)
        else:
            numbers = limits.NUMBERS.get(key, ())
            right = type(value) is int and value in numbers
        if not right:
            raise Refused("config refused", 2)
    return Settings(**{key: tuple(v) if key == "actors" else v for key, v in found.items()})


# ---- Events and the text of a trace


class Fetch(NamedTuple):
    actor: int
    hart: int
    seq: int
    pc: int
    word: Optional[int]
    predicted: int


class Decode(NamedTuple):
    actor: int
    seq: int


class Rename(NamedTuple):
    actor: int
    seq: int
    phys: Optional[int]


class Issue(NamedTuple):
    actor: int
    seq: int


class Outcome(NamedTuple):
    """The fields of a completion. A next is ("p", pc), ("e", status) or ("s", cause)."""

    value: Optional[int]
    next: tuple
    address: Optional[int] = None
    datum: Optional[int] = None
    out: Optional[int] = None


class Complete(NamedTuple):
    actor: int
    seq: int
    outcome: Outcome


class Drop(NamedTuple):
    actor: int
    seq: int


class Effect(NamedTuple):
    """The fields of a retirement. A write is an address, a count of bytes and their number."""

    value: Optional[int]
    next: tuple
    write: Optional[tuple] = None
    out: Optional[int] = None


class Retire(NamedTuple):
    actor: int
    seq: int
    effect: Effect


class Refetch(NamedTuple):
    actor: int
    seq: int


class Broken(Exception):
    """The rule that a line breaks."""


def decimal(numbers):
    """The reader of a decimal field that has to be one of these numbers."""

    def field(text):
        if not re.fullmatch(rb"0|[1-9][0-9]*", text):
            raise Broken(5)
        if len(text) > 20 or int(text) not in numbers:
            raise Broken(6)
        return int(text)

    return field


def hexadecimal(*counts):
    def field(text):
        if len(text) not in counts or not re.fullmatch(rb"[0-9a-f]+", text):
            raise Broken(5)
        return int(text, 16)

    return field


def optional(field):
    return lambda text: None if text == b"-" else field(text)


def next_field(text):
    if text[:1] in (b"p", b"e"):
        return text[:1].decode(), hexadecimal(8)(text[1:])
    if re.fullmatch(rb"s[0-8]", text):
        return "s", int(text[1:])
    raise Broken(5)


def sized(text):
    """How many bytes a number of two, four or eight digits is of, and the number."""
    return len(text) // 2, hexadecimal(2, 4, 8)(text)


def write_of(address, number):
    if (address is None) != (number is None):
        raise Broken(5)
    return None if address is None else (address, *number)


WORD, BYTE = hexadecimal(8), hexadecimal(2)
VALUES = (optional(WORD), next_field, optional(WORD), optional(WORD), optional(BYTE))


def kinds_within(spelled, refetches=False):
    """The kinds of events by their letters, and the readers of their fields, in a version's ranges."""
    actor, hart, register = (decimal(range(most + 1)) for most in spelled)
    seq = decimal(range(MOST_EVENTS))
    head = (actor, seq)
    last = {b"G": (Refetch, head)} if refetches else {}
    return last | {
        b"F": (Fetch, (actor, hart, seq, WORD, optional(WORD), WORD)),
        b"D": (Decode, head),
        b"R": (Rename, (*head, optional(register))),
        b"I": (Issue, head),
        b"C": (lambda actor, seq, *rest: Complete(actor, seq, Outcome(*rest)), (*head, *VALUES)),
        b"X": (Drop, head),
        b"T": (
            lambda actor, seq, value, next, address, number, out: Retire(
                actor, seq, Effect(value, next, write_of(address, number), out)
            ),
            (*head, optional(WORD), next_field, optional(WORD), optional(sized), optional(BYTE)),
        ),
    }


KINDS = {
    b"smt-trace 1": kinds_within(FIRST),
    b"smt-trace 2": kinds_within(SECOND),
    b"smt-trace 3": kinds_within(SECOND, refetches=True),
}


def event_of(line, kinds):
    """The event of a line without its newline; Broken with the first rule that the line breaks."""
    letter, *fields = line.split(b" ")
    if letter not in kinds:
        raise Broken(3)
    event, readers = kinds[letter]
    if len(fields) != len(readers):
        raise Broken(4)
    return event(*(read(field) for read, field in zip(readers, fields)))


class TraceCore(NamedTuple):
    """The core that a trace of version 2 or 3 names."""

    harts: int
    extra: int
    queue: int
    actors: tuple


def role(text):
    if text.decode("latin-1") not in limits.ROLES:
        raise Broken(5)
    return text.decode()


def core_of(line):
    """The core of a config line without its newline; Broken with the first rule that it breaks."""
    word, *fields = line.split(b" ")
    if word != b"config":
        raise Broken(3)
    if len(fields) - 3 not in limits.ACTORS:
        raise Broken(4)
    sizes = (limits.HARTS, limits.EXTRA, limits.QUEUED)
    numbers = [decimal(size)(field) for size, field in zip(sizes, fields)]
    return TraceCore(*numbers, tuple(role(field) for field in fields[3:]))


class Trace(NamedTuple):
    """What a trace says: its core, None in version 1, and its events."""

    core: Optional[TraceCore]
    events: list

    def settings(self, given):
        """The settings that the trace is judged by: those of its own core, and the others as given."""
        return given if self.core is None else given._replace(**self.core._asdict())


def trace_of(text):
    """The trace of a text; Refused with the first line that is wrong, and its rule."""
    *lines, behind = text.split(b"\n")
    kinds, core, events = None, None, []
    has_core = lines[:1] in ([b"smt-trace 2"], [b"smt-trace 3"])
    for place, line in enumerate(lines):
        try:
            if place == 0:
                if line not in KINDS:
                    raise Broken(1)
                kinds = KINDS[line]
            elif place == 1 and has_core:
                core = core_of(line)
            else:
                events.append(event_of(line, kinds))
        except Broken as broken:
            raise Refused(f"trace line {place + 1} refused {broken.args[0]}", 4) from broken
    if behind or len(lines) < 1 + has_core:
        raise Refused(f"trace line {len(lines) + 1} refused 2", 4)
    return Trace(core, events)


# ---- Version 3 of a text of an older version


def core_line(settings):
    """The second line of a trace of version 3."""
    sizes = f"{settings.harts} {settings.extra} {settings.queue}"
    return f"config {sizes} {' '.join(settings.actors)}\n".encode()


def migrated(settings, text):
    """The text of version 3 of a text of version 1 or 2, which names its core itself; Refused for one of version 3."""
    first, _, behind = text.partition(b"\n")
    if first == b"smt-trace 3":
        raise Refused("trace version refused", 4)
    trace_of(text)
    return b"smt-trace 3\n" + (core_line(settings) if first == b"smt-trace 1" else b"") + behind
