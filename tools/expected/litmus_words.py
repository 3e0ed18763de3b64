"""The text of a litmus test cut into words, with their places, as docs/FORMATS.md says. A part of litmus.py."""

import re
from typing import NamedTuple

from every_order import NAMES

MOST_BYTES = 65536
BLANKS = " \t\n\r\f"
# The types of numbers: how many bytes each has, and whether it has a sign.
TYPES = {"int": (4, True), "unsigned": (4, False), "char": (1, False), "short": (2, True)}
TYPES |= {f"{'u' * (not signed)}int{8 * size}_t": (size, signed) for size in (1, 2, 4) for signed in (True, False)}
KEYWORDS = ("not", "true", "exists", "forall", "locations", "filter", *TYPES)
ATOMICS = [f"amo{name}.w" for name in ("swap", "add", "and", "or", "xor", "min", "max", "minu", "maxu")]
ORDERED = [name + order for name in ("lr.w", "sc.w", *ATOMICS) for order in ("", ".aq", ".rl", ".aqrl", ".aq.rl")]
LOADS, STORES = ("lb", "lh", "lw", "lbu", "lhu"), ("sb", "sh", "sw")
SHIFTS = ("slli", "srli", "srai")
IMMEDIATES = ("addi", "slti", "sltiu", "xori", "ori", "andi", *SHIFTS)
THREE_REGISTERS = tuple("add sub sll slt sltu xor srl sra or and mul mulh mulhsu mulhu div divu rem remu".split())
# What each branch is of its two registers, of the same in turn, of one and 0, and of 0 and one.
BRANCHES = {name: name for name in ("beq", "bne", "blt", "bge", "bltu", "bgeu")}
SWAPPED = {"bgt": "blt", "ble": "bge", "bgtu": "bltu", "bleu": "bgeu"}
WITH_ZERO = {"beqz": "beq", "bnez": "bne", "bltz": "blt", "bgez": "bge"}
ZERO_WITH = {"bgtz": "blt", "blez": "bge"}
MNEMONICS = {*LOADS, *STORES, "li", "la", "lui", "mv", "nop", "j", "jal", "fence", "fence.tso"}
MNEMONICS |= {*ORDERED, *IMMEDIATES, *THREE_REGISTERS, *BRANCHES, *SWAPPED, *WITH_ZERO, *ZERO_WITH}
REGISTERS = {f"x{k}": k for k in range(32)} | {name: k for k, name in enumerate(NAMES)} | {"fp": 8}

SUBSET = "what stands there isn't of the subset"
UNFINISHED = "an end where something is missing"
TOO_LARGE = "a number that doesn't fit"
COMMENT = "a comment that doesn't end"


class Refused(Exception):
    """A fault, and the byte at which it begins."""

    def __init__(self, at, what):
        super().__init__(what)
        self.at, self.what = at, what


class Word(NamedTuple):
    """A word: where it begins, the byte behind it, what it is ("register", "number", "mark", "name", ..), and its text
    or number."""

    at: int
    end: int
    kind: str
    text: object


def place(text, at):
    """Line and column of a byte, from 1."""
    before = text[:at]
    return before.count("\n") + 1, at - (before.rfind("\n") + 1) + 1


def behind_blanks(text, at):
    """Where the next word begins, behind blanks and comments, or the text ends."""
    while at < len(text):
        if text[at] in BLANKS:
            at += 1
        elif text.startswith("(*", at):
            at = behind_comment(text, at)
        else:
            break
    return at


def behind_comment(text, begin):
    depth = 0
    for found in re.finditer(r"\(\*|\*\)", text[begin:]):
        depth += 1 if found.group() == "(*" else -1
        if depth == 0:
            return begin + found.end()
    raise Refused(begin, COMMENT)


def kind_of_name(name):
    if name in REGISTERS:
        return "register"
    if name in KEYWORDS:
        return "mark"
    if name in MNEMONICS:
        return "instruction"
    return "hart" if re.fullmatch("P(0|[1-9][0-9]*)", name) and int(name[1:]) < 2**32 else "name"


def number_of(at, text):
    """What a word is that begins with a digit."""
    if re.fullmatch("0[xX][0-9a-fA-F]+", text):
        number = int(text, 16)
    elif re.fullmatch("[0-9]+", text):
        number = int(text)
    else:
        raise Refused(at, SUBSET)
    if number >= 2**32:
        raise Refused(at, TOO_LARGE)
    return number


def word_of(text, at, end):
    if text[0] in "0123456789":
        return Word(at, end, "number", number_of(at, text))
    if text[0].isalpha() or text[0] == "_":
        return Word(at, end, kind_of_name(text), text)
    return Word(at, end, "mark", text)


def words_of(text, at):
    """All words from a byte on."""
    found = []
    at = behind_blanks(text, at)
    while at < len(text):
        spelled = re.compile(r"[A-Za-z0-9_][A-Za-z0-9_.]*|<=>|=>|!=|/\\|\\/|[,:;|=()\[\]{}~*+-]").match(text, at)
        if not spelled:
            raise Refused(at, SUBSET)
        found.append(word_of(spelled.group(), *spelled.span()))
        at = behind_blanks(text, spelled.end())
    return found


class Reader:
    """Words that are read one after the other. Where they end too early, that is told at the byte `end`."""

    def __init__(self, words, end):
        self.words, self.end, self.next = words, end, 0

    @classmethod
    def of_part(cls, words, mark):
        """Of the words before a mark: their end is right behind the last of them."""
        return cls(words, words[-1].end if words else mark.at)

    def peek(self):
        return self.words[self.next] if self.next < len(self.words) else None

    def at(self):
        """Where the next word begins, or the end."""
        return self.words[self.next].at if self.next < len(self.words) else self.end

    def is_mark(self, *marks):
        word = self.peek()
        return word is not None and word.kind == "mark" and word.text in marks

    def take(self):
        word = self.peek()
        if word is None:
            raise Refused(self.end, UNFINISHED)
        self.next += 1
        return word

    def take_if(self, *marks):
        """The next word, if it is one of these marks."""
        return self.take() if self.is_mark(*marks) else None

    def take_kind(self, kind, what=SUBSET):
        word = self.take()
        if word.kind != kind:
            raise Refused(word.at, what)
        return word

    def take_mark(self, mark):
        word = self.take()
        if word.kind != "mark" or word.text != mark:
            raise Refused(word.at, SUBSET)

    def take_register(self):
        return REGISTERS[self.take_kind("register", "a register that isn't one").text]

    def take_changing_register(self):
        """A register but x0."""
        at, register = self.at(), self.take_register()
        if register == 0:
            raise Refused(at, "register x0, which always holds 0")
        return register

    def take_number(self, low=-(2**31), high=2**32 - 1):
        """A number, with `-` before it or not."""
        at, sign = self.at(), -1 if self.take_if("-") else 1
        number = sign * self.take_kind("number").text
        if not low <= number <= high:
            raise Refused(at, TOO_LARGE)
        return number

    def nothing_more(self, what=SUBSET):
        if self.peek() is not None:
            raise Refused(self.at(), what)
