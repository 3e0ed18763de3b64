"""What docs/FORMATS.md says of the text behind a fault's line, whatever is in it. No part of the program."""

import json

MOST_LINES = 6
# Of a litmus test with further faults.
MOST_OF_SEVERAL = 15
PARTS = "error tip usage more file place word line cause expected meant usually for see further".split()


def is_shown(text):
    """Whether no control character of ASCII is in a text of bytes."""
    return all(byte >= 0x20 and byte != 0x7F for byte in text)


def are_parts(names):
    """Whether a hint can have parts of these names: where it tells of further faults, more of them."""
    most = MOST_OF_SEVERAL if "further" in names else MOST_LINES
    return len(names) <= most and all(name in PARTS for name in names)


def name_of(line):
    """The name of a line's part; empty where it is no such line."""
    name, colon, _ = line[1:].partition(b": ")
    return name.decode("latin-1") if line[:1] == b" " and colon and is_shown(line) else ""


def is_object(line, fault, status):
    """Whether a line is the object of a fault with this text and exit status, as it is spelled."""
    if line[:1] != b" " or not is_shown(line):
        return False
    try:
        found = json.loads(line[1:].decode())
    except ValueError:
        return False
    if list(found) != ["fault", "status", "hint"] or (found["fault"].encode(), found["status"]) != (fault, status):
        return False
    parts = found["hint"]
    if any(list(part) != ["part", "text"] for part in parts):
        return False
    is_right = are_parts([part["part"] for part in parts])
    return is_right and json.dumps(found, separators=(",", ":"), ensure_ascii=False).encode() == line[1:]


def without_hint(told, status, how):
    """The line of a fault that was told with `--hints HOW`, where what stands behind it is a hint or nothing; else all that was told."""
    first, newline, rest = told.partition(b"\n")
    if not newline or not rest or how == "never" or not first.startswith(b"smtsim: "):
        return told
    lines = rest.split(b"\n")
    if lines.pop() != b"":
        return told
    if how == "json":
        is_hint = len(lines) == 1 and is_object(lines[0], first.removeprefix(b"smtsim: "), status)
    else:
        is_hint = are_parts([name_of(line) for line in lines])
    return first + newline if is_hint else told
