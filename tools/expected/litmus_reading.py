"""Reads a litmus test, as the section "Litmus tests" of docs/FORMATS.md says. A part of litmus.py."""

import re
from dataclasses import dataclass, field

import litmus_code
import litmus_places
import litmus_question
from limits import MOST_HARTS
from litmus_words import BLANKS, MOST_BYTES, SUBSET, TYPES, UNFINISHED, Reader, Refused, behind_blanks, words_of

NO_QUESTION = "no exists, ~exists or forall"
QUESTIONS = ("exists", "~", "not", "forall", "locations", "filter")


@dataclass
class Test:
    """A litmus test. A value is a number, or an address."""

    name: str
    declared: dict = field(default_factory=dict)  # what each name is, in the order in which they come first
    starts: dict = field(default_factory=dict)  # values by hart and register
    contents: dict = field(default_factory=dict)  # the values of each location, or of an array's first elements
    code: list = field(default_factory=list)  # the instructions of each hart
    question: object = None


def read(text):
    """The test that a text is."""
    if len(text) > MOST_BYTES:
        raise Refused(MOST_BYTES, "more than 65536 bytes")
    name, at = read_head(text)
    test = Test(name)
    start, rest = split_braces(words_of(text, at)[1:], len(text))
    test.declared = litmus_places.laid_out(start.words)
    named = read_start(test, start)
    heads, rest = split(rest, ";", len(text))
    harts = read_heads(heads.words, len(text))
    for word in named:
        litmus_question.check_hart(word, harts)
    rows, rest = read_rows(rest, harts, len(text))
    test.question = litmus_question.read(Reader(rest, len(text)), test.declared, harts)
    test.code = [litmus_code.read([row[hart] for row in rows], test.declared) for hart in range(harts)]
    return test


def read_head(text):
    """The test's name, and where its braces begin."""
    at = behind_blanks(text, 0)
    if not re.compile(r"RISCV(?![A-Za-z0-9_.])").match(text, at):
        raise Refused(at, "a first word that isn't RISCV")
    end = text.find("\n", at)
    end = len(text) if end < 0 else end
    name = text[at + 5 : end].strip(BLANKS)
    if not name:
        raise Refused(at, "no name behind RISCV")
    return name, behind_lines(text, end)


def behind_lines(text, end):
    """Where the braces begin, behind a string and lines `Key=..`."""
    had_string = False
    while True:
        at = behind_blanks(text, end)
        key = re.compile(r"[A-Za-z0-9_.]+=[^\n]*").match(text, at)
        if at == len(text):
            raise Refused(at, UNFINISHED)
        if text[at] == "{":
            return at
        if text[at] == '"' and not had_string:
            end, had_string = text.find('"', at + 1) + 1, True
            if end == 0:
                raise Refused(at, "a string that doesn't end")
        elif key:
            end = key.end()
        else:
            raise Refused(at, "neither Key=.. nor {")


def split(words, mark, end):
    """A reader of the words before a mark, and the words behind it."""
    for k, word in enumerate(words):
        if word.kind == "mark" and word.text == mark:
            return Reader.of_part(words[:k], word), words[k + 1 :]
    raise Refused(end, UNFINISHED)


def split_braces(words, end):
    """A reader of the words in the braces, in which those of arrays stand, and the words behind them."""
    depth = 0
    for k, word in enumerate(words):
        if word.kind == "mark" and word.text in "{}":
            if word.text == "}" and depth == 0:
                return Reader(words[:k], end), words[k + 1 :]
            depth += 1 if word.text == "{" else -1
    raise Refused(end, UNFINISHED)


def read_start(test, reader):
    """Reads the entries of the braces, and gives the words of the harts in them."""
    named = []
    while reader.peek() is not None:
        named += read_entry(test, reader)
    return named


def read_entry(test, reader):
    """Reads an entry, with the mark behind it, and gives the word of its hart, if it has one."""
    kind = TYPES[reader.take().text] if reader.is_mark(*TYPES) else TYPES["int"]
    is_pointer, at, named = reader.take_if("*"), reader.at(), []

    def take_value():
        if is_pointer:
            return litmus_places.take_pointed(reader, test.declared, kind[0])
        return litmus_places.take_value(reader, test.declared, kind[0])

    if reader.peek() is not None and reader.peek().kind == "number":
        named.append(reader.take())
        reader.take_mark(":")
        what, into = (named[0].text, reader.take_changing_register()), test.starts
        reader.take_mark("=")
        values = take_value()
    else:
        what, into = read_name(reader, test.declared), test.contents
        values = read_contents(reader, test.declared[what], is_pointer, take_value)
    if what in into:
        raise Refused(at, "a second start of the same")
    into[what] = values
    if reader.peek() is not None:
        reader.take_mark(";")
    return named


def read_name(reader, declared):
    in_brackets, name = reader.take_if("["), litmus_places.take_name(reader, declared)
    if in_brackets:
        reader.take_mark("]")
    return name


def read_contents(reader, one, is_pointer, take_value):
    """What a location holds, or the first elements of an array."""
    if one.elements is None:
        return [take_value()] if reader.take_if("=") else [0]
    reader.take_mark("[")
    at, count = reader.at(), reader.take_kind("number").text
    if count == 0 or is_pointer:
        raise Refused(at, SUBSET)
    reader.take_mark("]")
    if not reader.take_if("="):
        return [0]
    reader.take_mark("{")
    values = []
    while True:
        if len(values) == one.elements:
            raise Refused(reader.at(), litmus_places.NO_ELEMENT)
        values.append(take_value())
        if not reader.take_if(","):
            reader.take_mark("}")
            return values


def read_heads(words, end):
    """How many harts there are."""
    if len(words) > 2 * MOST_HARTS:
        raise Refused(words[2 * MOST_HARTS].at, f"more than {MOST_HARTS} harts")
    for k, word in enumerate(words):
        if k % 2 == 0 and (word.kind != "hart" or word.text != f"P{k // 2}"):
            raise Refused(word.at, "harts that aren't P0, P1 and so on")
        if k % 2 == 1 and (word.kind != "mark" or word.text != "|"):
            raise Refused(word.at, SUBSET)
    if len(words) % 2 == 0:
        raise Refused(words[0].at if words else end, UNFINISHED)
    return len(words) // 2 + 1


def read_rows(words, harts, end):
    """A reader for each cell of each row, and the words of the question."""
    rows, row = [], []
    for k, word in enumerate(words):
        if not row and word.kind == "mark" and word.text in QUESTIONS:
            return rows, words[k:]
        row.append(word)
        if word.kind == "mark" and word.text == ";":
            rows.append(cells(row, harts))
            row = []
    raise Refused(end, NO_QUESTION)


def cells(row, harts):
    """A reader for each cell of a row, which has the mark at its end with it."""
    found, cell = [], []
    for word in row:
        if word.kind == "mark" and word.text in ("|", ";"):
            found.append(Reader.of_part(cell, word))
            cell = []
        else:
            cell.append(word)
    if len(found) != harts:
        columns = f"{len(found)} column{'s' if len(found) != 1 else ''}"
        there = f"there are {harts} harts" if harts != 1 else "there is 1 hart"
        raise Refused(row[0].at, f"a row with {columns} where {there}")
    return found
