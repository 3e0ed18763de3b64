"""Reads what stands behind the rows of a litmus test: what is looked at, and the condition. A part of litmus.py.

A condition is a tuple: ("true",), ("term", what, value), ("not", C), ("and", C, D, ..), ("or", C, D, ..), ("implies", C,
D) or ("iff", C, D). What is looked at is a hart and a register, the name of a location, or `x[1]`.
"""

from typing import NamedTuple

import litmus_places
from litmus_words import Refused

MOST_TERMS, MOST_LEVELS, MOST_OBSERVED = 32, 16, 64


class Question(NamedTuple):
    quantifier: str  # "exists", "~exists" or "forall"
    condition: tuple
    filter: tuple
    observed: list  # the registers by hart and number, then the locations in their order
    whole: set  # the arrays that are shown whole


def check_hart(word, harts):
    if word.text >= harts:
        raise Refused(word.at, "a hart that isn't there")


def read(reader, declared, harts):
    asked = Asked(reader, declared, harts)
    at = reader.at()
    parts = {}
    while reader.is_mark("locations", "filter") and reader.peek().text not in parts:
        which = reader.take().text
        parts[which] = asked.read_list() if which == "locations" else asked.read_whole()
    if reader.peek() is None and "locations" in parts:
        quantifier, condition = "forall", ("true",)
    else:
        quantifier, condition = read_quantifier(reader), asked.read_whole()
    reader.nothing_more("something behind the condition")
    registers = sorted(one for one in asked.named if isinstance(one, tuple))
    numbers = [what for name, one in declared.items() for what, _ in one.numbers(name)]
    observed = registers + [what for what in numbers if what in asked.named]
    if len(observed) > MOST_OBSERVED:
        raise Refused(at, "more than 64 registers and locations looked at")
    return Question(quantifier, condition, parts.get("filter", ("true",)), observed, asked.whole)


def read_quantifier(reader):
    if reader.take_if("~", "not"):
        reader.take_mark("exists")
        return "~exists"
    if reader.is_mark("exists", "forall"):
        return reader.take().text
    raise Refused(reader.at(), "no exists, ~exists or forall")


class Asked:
    """What is asked, as far as it is read: how many terms there were, and what they and the list name."""

    def __init__(self, reader, declared, harts):
        self.reader, self.declared, self.harts = reader, declared, harts
        self.terms, self.named, self.whole = 0, set(), set()

    def read_list(self):
        self.reader.take_mark("[")
        while not self.reader.take_if("]"):
            self.read_listed()
            if not self.reader.is_mark("]"):
                self.reader.take_mark(";")

    def read_listed(self):
        """An array as a whole, or a register or a location."""
        words = self.reader.words[self.reader.next : self.reader.next + 2]
        one = self.declared.get(words[0].text) if words and words[0].kind == "name" else None
        if one is None or one.elements is None or len(words) == 2 and litmus_places.is_mark(words[1], "["):
            self.read_observed()
            return
        name = self.reader.take().text
        self.whole.add(name)
        self.named |= {what for what, _ in one.numbers(name)}

    def size_of(self, what):
        """How many bytes a number has that is looked at."""
        return 4 if isinstance(what, tuple) else self.declared[what.partition("[")[0]].size

    def read_observed(self):
        """A register of a hart, or a location."""
        word = self.reader.peek()
        if word is not None and word.kind == "number":
            check_hart(self.reader.take(), self.harts)
            self.reader.take_mark(":")
            what = word.text, self.reader.take_changing_register()
        else:
            what = litmus_places.take_looked_at(self.reader, self.declared)
        self.named.add(what)
        return what

    def read_whole(self):
        """A filter, or the condition: each has so many terms."""
        self.terms = 0
        return self.read_condition(0)

    def read_condition(self, level):
        condition = self.read_implied(level)
        while self.reader.take_if("<=>"):
            condition = ("iff", condition, self.read_implied(level))
        return condition

    def read_implied(self, level):
        condition = self.read_either(level)
        return ("implies", condition, self.read_implied(level)) if self.reader.take_if("=>") else condition

    def read_either(self, level):
        parts = [self.read_both(level)]
        while self.reader.take_if("\\/"):
            parts.append(self.read_both(level))
        return ("or", *parts) if len(parts) > 1 else parts[0]

    def read_both(self, level):
        parts = [self.read_one(level)]
        while self.reader.take_if("/\\"):
            parts.append(self.read_one(level))
        return ("and", *parts) if len(parts) > 1 else parts[0]

    def read_one(self, level):
        at = self.reader.at()
        if self.reader.is_mark("~", "not", "(") and level == MOST_LEVELS:
            raise Refused(at, "more than 16 levels of not and parentheses")
        if self.reader.take_if("true"):
            self.count(at)
            return ("true",)
        if self.reader.take_if("~", "not"):
            return ("not", self.read_one(level + 1))
        if self.reader.take_if("("):
            condition = self.read_condition(level + 1)
            self.reader.take_mark(")")
            return condition
        term = self.read_term()
        self.count(at)
        return term

    def count(self, at):
        """Counts a term or `true` that stands here."""
        if self.terms == MOST_TERMS:
            raise Refused(at, f"more than {MOST_TERMS} terms")
        self.terms += 1

    def read_term(self):
        what = self.read_observed()
        is_other = self.reader.take_if("!=")
        if not is_other:
            self.reader.take_mark("=")
        term = ("term", what, litmus_places.take_value(self.reader, self.declared, self.size_of(what)))
        return ("not", term) if is_other else term
