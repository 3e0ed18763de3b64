"""The faults of a text that is no litmus test, ten at the most, each with its word: what stands in the hint.

    python3 tools/expected/litmus_faults.py TEST
        the parts `cause`, `expected` and `further` of its hint

Written from docs/FORMATS.md ("Litmus tests" and "Hints").
"""

import re
import sys

import litmus_code
import litmus_places
import litmus_question
import litmus_reading
from litmus_words import COMMENT, MOST_BYTES, SUBSET, Reader, Refused, behind_blanks, place, words_of

MOST_FAULTS, MOST_SHOWN = 10, 24
NARROW = "registers have 32 bits"
# The faults that are told without a word.
WORDLESS = re.compile("more than|a comment|a string|no name|an end|register x0|a row|no exists")
INSTEAD = {
    "ecall ebreak": "a hart ends behind its last instruction, without one",
    "fence.i": "fence: a test writes no code",
    "auipc": "a number by li, or an address by la",
    "jalr jr ret call tail": "j and a label: a test has no addresses of code",
    "ld lwu": f"lw: {NARROW}",
    "sd": f"sw: {NARROW}",
    "addiw slliw srliw sraiw addw subw sllw srlw sraw mulw divw divuw remw remuw": f"the same without w: {NARROW}",
    "sext.w": f"mv: {NARROW}",
    "int64_t uint64_t long": "int: numbers have 32 bits",
    "float double": "int: there is no floating point",
}
# What is told of a fault, whatever its word is.
TOLD = {
    "a link register other than x0": "j and the label: a test has no addresses of code",
    "an element that isn't there": "an index or an offset inside: both count from 0",
    "an array where a number is wanted": "one of its elements, as x[0]",
    "an address in a byte or a half": "a number, or a location of 32 bits: an address has as many",
    "a pointer to numbers of another size": "the type that the location has, before the *",
}
KINDS = {
    r".*\.rl\.aq": "the same with .aq.rl",
    r"(lr\.|sc\.|amo).*\.d.*|(lr|sc)\.d.*": "the same with .w: words have 32 bits",
    r"flw|fsw|fld|fsd|frcsr|fscsr|f.*\.[sd].*": "an instruction on registers x0 to x31: there is no floating point",
    r"vset.*|v.*\.v.*": "an instruction for each element: there are no vectors",
}


class Faults:
    def __init__(self, text):
        self.text, self.found = text, []

    def put(self, refused, is_instruction=False):
        self.found.append((refused.at, refused.what, is_instruction))

    def look(self, read, *arguments):
        """What is read; None where that is refused, which is noted."""
        try:
            return read(*arguments)
        except Refused as refused:
            self.put(refused)
            return None

    def see(self):
        if len(self.text) > MOST_BYTES:
            return self.put(Refused(MOST_BYTES, "more than 65536 bytes"))
        head = self.look(litmus_reading.read_head, self.text)
        if head is None:
            return None
        words = self.see_words(head[1])
        return None if words is None else self.see_parts(words[1:])

    def see_words(self, at):
        """The words, or None where something isn't one: each such thing is noted."""
        while True:
            try:
                words = words_of(self.text, at)
                return None if self.found else words
            except Refused as refused:
                self.put(refused)
                if refused.what == COMMENT or len(self.found) == MOST_FAULTS:
                    return None
                at = re.compile(r"[A-Za-z0-9_.]+|[\x80-\xff]+|.", re.S).match(self.text, refused.at).end()

    def see_parts(self, words):
        end = len(self.text)
        parts = self.look(litmus_reading.split_braces, words, end)
        declared = None if parts is None else self.look(litmus_places.laid_out, parts[0].words)
        if declared is None:
            return
        named = self.see_entries(parts[0].words, declared, end)
        heads = self.look(litmus_reading.split, parts[1], ";", end)
        harts = None if heads is None else self.look(litmus_reading.read_heads, heads[0].words, end)
        if harts is None:
            return
        for word in named:
            self.look(litmus_question.check_hart, word, harts)
        seen = self.see_rows(heads[1], harts, end)
        if seen is not None:
            rows, rest = seen
            self.look(litmus_question.read, Reader(rest, end), declared, harts)
            for hart in range(harts):
                self.see_hart([None if row is None else row[hart] for row in rows], declared)

    def see_entries(self, words, declared, end):
        """The words of harts in entries that are read."""
        test, named = litmus_reading.Test("", declared), []
        while words:
            reader = Reader(words, end)
            length = next((k for k, word in enumerate(words) if word.kind == "mark" and word.text == ";"), len(words))
            try:
                named += litmus_reading.read_entry(test, reader)
            except Refused as refused:
                self.put(refused)
            words = words[length + 1 :]
        return named

    def see_rows(self, words, harts, end):
        """The rows, None for one with another number of columns, and the words of the question."""
        rows, row = [], []
        for k, word in enumerate(words):
            if not row and word.kind == "mark" and word.text in litmus_reading.QUESTIONS:
                return rows, words[k:]
            row.append(word)
            if word.kind == "mark" and word.text == ";":
                rows.append(self.look(litmus_reading.cells, row, harts))
                row = []
        self.put(Refused(end, litmus_reading.NO_QUESTION))
        return None

    def see_hart(self, cells, declared):
        code, labels, is_read = [], {}, None not in cells
        for cell in cells:
            if cell is not None and not self.see_cell(cell, code, labels, declared):
                is_read = False
        if is_read:
            for instruction in code:
                self.look(litmus_code.resolved, instruction, labels)

    def see_cell(self, cell, code, labels, declared):
        begin = None
        try:
            litmus_code.read_label(cell, labels, len(code))
            begin = cell.peek()
            if begin is not None:
                instruction = litmus_code.read_instruction(cell, declared)
                if len(code) == litmus_code.MOST_STEPS:
                    raise Refused(begin.at, "more than 500 steps of a hart")
                code.append(instruction)
        except Refused as refused:
            unknown = begin is not None and refused.at == begin.at and begin.kind == "name"
            self.put(refused, unknown and refused.what == SUBSET)
            return False
        return True


def word_at(text, at):
    """As much as is shown of the word that begins at a byte."""
    name = re.compile(r"[A-Za-z0-9_.]*").match(text, at).group() or text[at : at + 1]
    shown = name[:MOST_SHOWN].encode("latin-1")
    try:
        return shown.decode("utf-8")
    except UnicodeDecodeError:
        return ""


def in_place_of(word):
    for names, other in INSTEAD.items():
        if word in names.split():
            return other
    return next((other for kind, other in KINDS.items() if re.fullmatch(kind, word)), None)


def parts(text):
    """The parts of a hint, each with its name."""
    faults = Faults(text)
    faults.see()
    for number, (at, what, is_instruction) in enumerate(faults.found[:MOST_FAULTS]):
        line, column = place(text, at)
        word = "" if WORDLESS.match(what) else word_at(text, at)
        said = f"{word} is not known here" if is_instruction and word else f"{what}: {word}" if word else what
        other = TOLD.get(what) or in_place_of(word)
        if number == 0:
            yield "cause", f"column {column}: {said}"
            if other:
                yield "expected", other
        else:
            yield "further", f"line {line}, column {column}: {said}" + (f"; {other}" if other else "")


def main(words):
    with open(words[0], "rb") as file:
        text = file.read().decode("latin-1")
    for name, said in parts(text):
        print(f" {name}: {said}")
    return 0


if __name__ == "__main__":
    sys.exit(main(sys.argv[1:]))
