"""Why a line of a trace can't be read, as `check --why` says it: by the readers of judge_inputs.py, field by field.

Written from docs/FORMATS.md ("The refusal, explained").
"""

import limits
from judge_inputs import FIRST, KINDS, MOST_EVENTS, SECOND, Broken, hexadecimal, optional, sized
from judge_inputs import decimal, next_field, role

SHOWN = 100

RULES = (
    "the first line names a version of the trace", "a newline ends the line",
    "the first field is one that the line may begin with", "the line has as many fields as stand behind its first",
    "each field is spelled as it has to be", "each number is in its range",
)

WORD, BYTE = hexadecimal(8), hexadecimal(2)
DIGITS = "8 hexadecimal digits"
NEXT = "p and 8 hexadecimal digits, e and 8, or s and a cause from 0 to 8"


def number(name, numbers):
    return name, decimal(numbers), f"a number from {numbers[0]} to {numbers[-1]}"


def fields_of(letter, spelled):
    """The names of the fields behind a letter, in the ranges of a version: each with its reader, and what it may be."""
    actor, hart, register = spelled
    head = [number("actor", range(actor + 1)), number("number", range(MOST_EVENTS))]
    word = (optional(WORD), f"{DIGITS}, or -")
    if letter == b"F":
        place = [("pc", WORD, DIGITS), ("word", *word), ("predicted", WORD, DIGITS)]
        return [head[0], number("hart", range(hart + 1)), head[1], *place]
    if letter == b"R":
        name, read, may = number("register", range(register + 1))
        return [*head, (name, optional(read), f"{may}, or -")]
    if letter in (b"C", b"T"):
        data = (optional(sized), "2, 4 or 8 hexadecimal digits, or -") if letter == b"T" else word
        out = ("out", optional(BYTE), "2 hexadecimal digits, or -")
        return [*head, ("value", *word), ("next", next_field, NEXT), ("address", *word), ("data", *data), out]
    return head


def shown(text):
    """A text as it is shown to a person."""
    return b"".join(b"\\x%02x" % byte if byte < 32 or byte == 127 else bytes((byte,)) for byte in text)


def cut(text):
    return shown(text) if len(text) <= SHOWN else shown(text[:SHOWN]) + b" .. (%d bytes)" % len(text)


def field(text):
    return cut(text) or b"nothing"


def there(name, text, may):
    return b"%s: the line has %s; there may stand %s" % (name.encode(), field(text), may.encode())


def first_fault(letter, fields, readers):
    """The first field that may not stand there, and what may."""
    for place, (text, (name, read, may)) in enumerate(zip(fields, readers)):
        try:
            read(text)
        except Broken:
            return there(name, text, may)
        if letter == b"T" and place == 5 and (fields[4] == b"-") != (text == b"-"):
            both = field(fields[4]) + b" and " + field(text)
            return b"address and data: the line has " + both + b"; there may stand both or none"
    raise AssertionError("each field may stand there")


def core_fault(line, rule):
    word, *fields = line.split(b" ")
    if rule == 3:
        return there("first field", word, "config")
    if rule == 4:
        count = f"fields: the line has {len(fields)} behind config; there may stand 4 to {3 + limits.ACTORS[-1]}: "
        return f"{count}harts extra queue, and 1 to {limits.ACTORS[-1]} roles".encode()
    sizes = [number(*size) for size in (("harts", limits.HARTS), ("extra", limits.EXTRA), ("queue", limits.QUEUED))]
    roles = [("role", role, "fetch, front, retire, alu, mul or mem")] * len(fields)
    return first_fault(word, fields, sizes + roles)


def event_fault(line, rule, first):
    letter, *fields = line.split(b" ")
    readers = fields_of(letter, FIRST if first == b"smt-trace 1" else SECOND)
    if rule == 3:
        *some, last = [name.decode() for name in (b"F", b"D", b"R", b"I", b"C", b"X", b"T", b"G") if name in KINDS[first]]
        return there("first field", letter, f"{', '.join(some)} or {last}")
    if rule == 4:
        names = " ".join(name for name, _, _ in readers)
        count = f"fields: the line has {len(fields)} behind {letter.decode()}; there may stand {len(readers)}: {names}"
        return count.encode()
    return first_fault(letter, fields, readers)


def why_line(text, place, rule):
    """The lines that say why the line at a place, from 1, breaks a rule."""
    lines = text.split(b"\n")
    line, first = lines[place - 1], lines[0]
    if rule == 2:
        fault = b"end: the text ends without a newline"
    elif place == 1:
        fault = there("version", line, "smt-trace 1, smt-trace 2 or smt-trace 3")
    elif place == 2 and first != b"smt-trace 1":
        fault = core_fault(line, rule)
    else:
        fault = event_fault(line, rule, first)
    head = b"line %d: %s\nrule %d: %s\n" % (place, cut(line), rule, RULES[rule - 1].encode())
    return head + fault + b"\n"
