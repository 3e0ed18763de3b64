"""What stands beside addresses with --names and --lines, as docs/FORMATS.md says, and why source lines are refused."""

import re

import symbols
from inputs import Refused


def word(name):
    """A name of an input as one word: control characters and spaces spelled out."""
    return "".join(f"\\x{b:02x}" if b < 0x21 or b == 0x7F else chr(b) for b in name)


def source_lines(text, image):
    """The file and line of each address; or the refusal of the first line that is none of the image's code."""
    found, last = {}, -1
    lines = text.split(b"\n")
    for number, line in enumerate(lines[:-1] if lines[-1] == b"" else lines, 1):
        address, _, others = line.partition(b" ")
        file, _, place = others.rpartition(b" ")
        at = int(address, 16) if re.fullmatch(rb"[0-9a-f]{8}", address) else None
        if number == len(lines):
            why = "no newline behind it"
        elif at is None:
            why = "no address"
        elif not file:
            why = "no file"
        elif not re.fullmatch(rb"[1-9][0-9]*", place) or int(place) >= 2**32:
            why = "no line number"
        elif not image.has_word(at):
            why = "no word of the code is there"
        elif at <= last:
            why = "not behind the address before"
        else:
            found[at] = f"{word(file)}:{int(place)}"
            last = at
            continue
        raise Refused(f"lines {number} refused: {why}", 2)
    return found


class Labels:
    """What is wanted beside addresses: the names of a file's table of symbols, the lines of its sources."""

    def __init__(self, file, is_named, lines):
        try:
            self.names = (symbols.names(file) or []) if is_named else None
        except symbols.Damaged:
            self.names = []
        self.lines = lines

    def name_of(self, address, form="{}"):
        place = symbols.name_at(self.names, address)
        return "-" if place is None else form.format(word(place[0]) + (f"+{place[1]}" if place[1] else ""))

    def beside(self, address, form="{}"):
        """What stands behind a line of this address, a space before each."""
        name = [] if self.names is None else [self.name_of(address, form)]
        line = [] if self.lines is None else [self.lines.get(address, "-")]
        return "".join(f" {it}" for it in name + line)

    def marked(self, command, text):
        """A line of what a command prints, with what is wanted beside its address, where it has one."""
        fields = text.split(" ")
        if command == "list":
            return text + self.beside(int(fields[0], 16), "<{}>")
        if fields[:2] == ["done", "F"]:
            return text + self.beside(int(fields[5], 16))
        if len(fields) == 8 and re.fullmatch("[0-9]+ [0-9a-f]{8}", " ".join(fields[:2])):
            return text + self.beside(int(fields[1], 16))
        return text
