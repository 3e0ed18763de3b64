"""Conditions of `smtsim outcomes`, read and asked as docs/FORMATS.md says under "The outcomes", and the answers to questions.

    python3 tools/expected/conditions.py CONDITION
        the condition with all its parentheses, or the column at which it is refused and what was expected there

A condition is taken apart from the left, a byte at a time, by what stands there; a place in memory is looked up by the
function that is handed over.
"""

import re
import sys

MOST_TERMS, MOST_LEVELS = 32, 16
BLANK = " \t\n\f\r"


class Refused(Exception):
    """The column, from 1, and what was expected."""

    def __init__(self, column, expected):
        super().__init__(f"column {column}: expected {expected}")
        self.column, self.expected = column, expected


class NoTerm(Exception):
    """A text is no term: what was expected."""


TERM = "hN=K, hN=stopped K, REGISTER@HART=K, NAME=K or ADDRESS:4=K"
CLOSING = "a closing parenthesis at its end"
TERMS = f"no more than {MOST_TERMS} terms"
LEVELS = f"no more than {MOST_LEVELS} levels of ! and parentheses"


def joints(text):
    """The places of `&` and `|` outside of quotation marks and parentheses."""
    found, depth, quoted = [], 0, False
    for place, byte in enumerate(text):
        if byte == "'":
            quoted = not quoted
        elif quoted:
            continue
        elif byte == "(":
            depth += 1
        elif byte == ")":
            depth = max(0, depth - 1)
        elif byte in "&|" and depth == 0:
            found.append(place)
    return found


class Reader:
    """Reads one condition; `term_of` says what a part means, or raises NoTerm."""

    def __init__(self, term_of):
        self.term_of, self.count = term_of, 0

    def read(self, text, column=1, levels=MOST_LEVELS):
        ways = joints(text)
        ors = [place for place in ways if text[place] == "|"]
        cuts = ors or ways
        if cuts:
            parts, start = [], 0
            for place in [*cuts, len(text)]:
                parts.append(self.read(text[start:place], column + start, levels))
                start = place + 1
            return ("any" if ors else "all", parts)
        return self.alone(text, column, levels)

    def alone(self, text, column, levels):
        inner = text.strip(BLANK)
        at = column + len(text) - len(text.lstrip(BLANK))
        if inner[:1] == "(" and (len(inner) < 2 or inner[-1] != ")"):
            raise Refused(at, CLOSING)
        if inner[:1] in ("!", "(") and inner:
            if levels == 0:
                raise Refused(at, LEVELS)
            if inner[0] == "!":
                return ("not", self.read(inner[1:], at + 1, levels - 1))
            return self.read(inner[1:-1], at + 1, levels - 1)
        try:
            term = self.term_of(inner)
        except NoTerm as why:
            raise Refused(column, str(why)) from None
        self.count += 1
        if self.count > MOST_TERMS:
            raise Refused(column, TERMS)
        return ("term", term)


def number(text):
    """A number of 32 bits, decimal or hexadecimal; None where a text is none."""
    if re.fullmatch(r"0|[1-9][0-9]*", text):
        value = int(text)
    elif re.fullmatch(r"0x[0-9a-f]{1,8}", text):
        value = int(text, 16)
    else:
        return None
    return value if value < 2**32 else None


def cut(text):
    """What stands before the sign of a relation, the sign, and what stands behind it."""
    quoted = False
    marks = []
    for place, byte in enumerate(text):
        if byte == "'":
            quoted = not quoted
        elif not quoted and byte in "=<":
            marks.append((place, byte))
    for place, byte in marks:
        if byte == "=":
            before = text[place - 1 : place]
            start = place - 1 if before in ("!", ">") and before else place
            return text[:start], text[start : place + 1], text[place + 1 :]
    for place, _ in marks:
        return text[:place], "<", text[place + 1 :]
    raise NoTerm(TERM)


def byte_number(text):
    return int(text) if re.fullmatch(r"0|[1-9][0-9]*", text) and int(text) < 256 else None


def term_reader(place_of, has_out):
    """What a term says: `place_of` gives what is watched by a text, or raises NoTerm; `has_out`, whether the program has a
    name `out`."""

    def harts_of(left):
        if left == "h*":
            return "each"
        return byte_number(left[1:]) if left[:1] == "h" else None

    def term_of(text):
        left, sign, right = cut(text)
        harts, value = harts_of(left), number(right)
        if harts is not None:
            if value is not None:
                return ("ended", harts, sign, value)
            if sign in ("=", "!="):
                if right == "stopped":
                    return ("stopped", harts, sign, None)
                if right.startswith("stopped ") and byte_number(right[8:]) is not None:
                    return ("stopped", harts, sign, byte_number(right[8:]))
        if left == "out" and sign in ("=", "!=") and not has_out and re.fullmatch(r"([0-9a-f]{2})*", right):
            return ("put", sign, bytes.fromhex(right))
        if value is None:
            raise NoTerm(TERM)
        return ("holds", (left, place_of(left)), sign, value)

    return term_of


def read(text, place_of, has_out=False):
    """The condition that a text says. Raises Refused where it says none."""
    return Reader(term_reader(place_of, has_out)).read(text)


def terms(condition):
    kind, inside = condition
    if kind == "term":
        return [inside]
    return terms(inside) if kind == "not" else [one for part in inside for one in terms(part)]


def compares(sign, found, value):
    """A number that isn't there is other than each."""
    if sign == "!=":
        return found != value
    return found is not None and {"=": found == value, "<": found < value, ">=": found >= value}[sign]


def term_holds(term, statuses, number_of, output):
    kind, *said = term
    if kind in ("ended", "stopped"):
        harts, sign, value = said
        those = statuses if harts == "each" else [statuses[harts]]
        found = [number if how == kind else None for how, number in those]
        if kind == "ended":
            return all(compares(sign, one, value) for one in found)
        so = [one is not None and value in (None, one) for one in found]
        return all(one == (sign == "=") for one in so)
    if kind == "put":
        sign, value = said
        return (bytes(output) == value) == (sign == "=")
    (_, what), sign, value = said
    return compares(sign, number_of(what), value)


def holds(condition, statuses, number_of, output):
    """Whether a condition holds of an end: its harts' statuses, the numbers of what is watched, and what was put out."""
    kind, inside = condition
    if kind == "term":
        return term_holds(inside, statuses, number_of, output)
    if kind == "not":
        return not holds(inside, statuses, number_of, output)
    return {"any": any, "all": all}[kind](holds(one, statuses, number_of, output) for one in inside)


def answer(question, truths, is_whole=True, is_stuck=False, named_as="outcomes"):
    """The line of an answer and the exit status, by the truth of the condition for each outcome that was found, or, of a
    sample, which isn't whole, for each end that came."""
    if question == "never-stuck":
        said = ("no" if is_stuck else "yes") if is_whole else "unknown"
        return f"never-stuck: {said}", {"yes": 0, "no": 1, "unknown": 3}[said]
    named = [k for k, truth in enumerate(truths, 1) if truth == (question != "forall")]
    by_one, by_none = ("yes", "no") if question == "exists" else ("no", "yes")
    if named:
        return f"{question}: {by_one}, {named_as} {' '.join(map(str, named))}", 0 if by_one == "yes" else 1
    said = by_none if is_whole else "unknown"
    return f"{question}: {said}", {"yes": 0, "no": 1, "unknown": 3}[said]


def spelled(condition):
    kind, inside = condition
    if kind == "term":
        return repr(inside)
    if kind == "not":
        return f"!{spelled(inside)}"
    return "(" + {"any": " | ", "all": " & "}[kind].join(map(spelled, inside)) + ")"


if __name__ == "__main__":
    try:
        print(spelled(read(sys.argv[1], lambda left: left)))
    except Refused as why:
        print(why)
        sys.exit(2)
