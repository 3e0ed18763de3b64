"""Every end of a program, over all orders of whole instructions, as `smtsim outcomes` lists them.

    python3 tools/expected/every_order.py IMAGE [--config FILE] [--watch LIST] [--exists|--forall|--never CONDITION] [--never-stuck]
        what the program prints, but for the number of states: it looks at fewer

Each state that the plain machine can come to is visited once, and nothing is left out. Written from
docs/FORMATS.md alone.
"""

import re
import sys
from collections import deque

import conditions
import image
import inputs
from outcomes import frozen, thawed
from plain import Plain
from symbols import Damaged, names_with_files

NAMES = ["zero", "ra", "sp", "gp", "tp", "t0", "t1", "t2", "s0", "s1"]
NAMES += [f"a{k}" for k in range(8)] + [f"s{k}" for k in range(2, 12)] + [f"t{k}" for k in range(3, 7)]


class TooMany(Exception):
    """There are more states than may be looked at."""


class NoHart(Exception):
    """A hart is named that isn't there."""


class NoPlace(Exception):
    """A place in memory is named that isn't there, or a part says nothing; what was expected, where that is known."""


def parts(text, separator):
    """A text's parts between separators that stand outside of quotation marks."""
    return re.findall(f"(?:'[^']*'|[^{separator}'])+", text)


def is_hart(name):
    return name[:1] == "h" and conditions.byte_number(name[1:]) is not None


def plain(name):
    """The name that stands in quotation marks, or in none."""
    if name[:1] == "'":
        if not re.fullmatch("'[^']+'", name):
            raise NoPlace(conditions.TERM)
        return name[1:-1].encode()
    if not re.fullmatch(r"[A-Za-z_.$][A-Za-z0-9_.$-]*", name) or is_hart(name) or re.fullmatch(r"[0-9a-f]{8}", name):
        raise NoPlace(conditions.TERM)
    return name.encode()


def symbol(name, symbols):
    """Address and size of what a name stands for: global ones go before local ones."""
    *file, last = re.findall(r"(?:'[^']*'|[^:'])+", name)
    if ":".join([*file, last]) != name or len(file) > 1:
        raise NoPlace(conditions.TERM)
    wanted, named = plain(file[0]) if file else None, plain(last)
    found = [one for one in symbols if one.name == named and wanted in (None, one.file)]
    found = [one for one in found if one.is_global] or found
    if len({one.address for one in found}) != 1:
        raise NoPlace("a name with one address" if found else "a name that the image has")
    return found[0].address, found[0].size


def watched(text, symbols=()):
    """What a part of a list names: a hart and a register, or an address and how many bytes."""
    if "@" in text and text[0] != "'":
        name, hart = text.split("@")
        number = int(name[1:]) if re.fullmatch("x([1-9]|[12][0-9]|3[01])", name) else NAMES.index(name)
        if number == 0 or conditions.byte_number(hart) is None:
            raise NoPlace(conditions.TERM)
        return "register", int(hart), number
    text, width = (text[:-2], int(text[-1])) if text[-2:] in (":1", ":2", ":4") else (text, None)
    if width and re.fullmatch("[0-9a-f]{8}", text):
        return "memory", int(text, 16), width
    name, index, bytes_behind = re.fullmatch(r"((?:'[^']*'|[^'\[+])+)(?:\[(\w+)\])?(?:\+(\w+))?", text).groups()
    index, bytes_behind = (conditions.number(one) if one else 0 for one in (index, bytes_behind))
    if None in (index, bytes_behind):
        raise NoPlace(conditions.TERM)
    address, size = symbol(name, symbols)
    width = width or (size if size in (1, 2) else 4)
    behind = index * width or bytes_behind
    if size and behind + width > size or address + behind >= 2**32:
        raise NoPlace("a place inside of its object")
    return "memory", address + behind, width


def condition(text, symbols=()):
    """The condition that a text says."""

    def place_of(left):
        try:
            return watched(left, symbols)
        except NoPlace as why:
            raise conditions.NoTerm(str(why)) from None
        except (AttributeError, IndexError, ValueError):
            raise conditions.NoTerm(conditions.TERM) from None

    return conditions.read(text, place_of, any(one.name == b"out" for one in symbols))


def ending(machine, columns):
    found = [machine.registers[one[1]][one[2]] if one[0] == "register" else machine.read(one[1], one[2]) for _, one in columns]
    return tuple(machine.statuses), tuple(found), tuple(machine.output)


def explore(made, harts, columns, most=None):
    """All endings, whether some state has no way to an end, and the places in memory that are 0 in every state."""
    start = frozen(Plain(made, harts))
    seen, waiting, behind, ends = {start}, deque([start]), {}, {}
    unwritten = [what for _, what in columns if what[0] == "memory"]
    while waiting:
        here = waiting.popleft()
        machine = thawed(made, here)
        unwritten = [what for what in unwritten if machine.read(what[1], what[2]) == 0]
        if not machine.going():
            ends[here] = ending(machine, columns)
        for hart in machine.going():
            machine = thawed(made, here)
            machine.step(hart)
            there = frozen(machine)
            behind.setdefault(there, []).append(here)
            if there not in seen:
                seen.add(there)
                waiting.append(there)
                if most is not None and len(seen) > most:
                    raise TooMany
    can_end, waiting = set(ends), deque(ends)
    while waiting:
        for before in behind.get(waiting.popleft(), []):
            if before not in can_end:
                can_end.add(before)
                waiting.append(before)
    return set(ends.values()), len(can_end) < len(seen), unwritten


def rank(found):
    statuses, numbers, output = found
    return [(kind == "stopped", number) for kind, number in statuses], numbers, output


def line(found, columns):
    statuses, numbers, output = found
    shown = [f"{label}={number}" for (label, _), number in zip(columns, numbers)]
    text = ", ".join(f"{kind} {number}" for kind, number in statuses)
    text += f"; {', '.join(shown)}" if shown else ""
    return text + (f"; output {bytes(output).hex()}" if output else "")


def holds(asked, found, columns):
    statuses, numbers, output = found
    places = [what for _, what in columns]
    return conditions.holds(asked, statuses, lambda what: numbers[places.index(what)], output)


def watched_terms(asked):
    return [term[1] for term in conditions.terms(asked) if term[0] == "holds"]


def columns_of(watch, exists, symbols=()):
    """What is watched with its spelling, each once, where it is named first; the registers before places in memory."""
    named = [(part, watched(part, symbols)) for part in parts(watch, ",")] if watch else []
    named += watched_terms(condition(exists, symbols)) if exists is not None else []
    once = {}
    for label, what in named:
        once.setdefault(what, label)
    return sorted(((label, what) for what, label in once.items()), key=lambda one: one[1][0] == "memory")


def see_harts(named, harts):
    """Refuses the first hart that isn't there, of harts and of registers with their harts."""
    for one in named:
        hart = one[1] if isinstance(one, tuple) else one
        if hart >= harts:
            raise NoHart(hart)


def harts_in(asked):
    """The harts that the terms of a condition name, in their order; None where a term names none."""
    for kind, what, *_ in conditions.terms(asked):
        if kind in ("ended", "stopped") and what != "each":
            yield what
        if kind == "holds" and what[1][0] == "register":
            yield what[1]


def lines(made, harts, watch="", exists=None, most=None, symbols=(), question="exists"):
    """What is printed, without the line of the states. The condition is that of the question, if it has one."""
    asked = condition(exists, symbols) if exists is not None else None
    named = list(harts_in(asked)) if asked else []
    see_harts(named + [what for _, what in columns_of(watch, None, symbols) if what[0] == "register"], harts)
    columns = columns_of(watch, exists, symbols)
    found, is_stuck, unwritten = explore(made, harts, columns, most)
    ends = sorted(found, key=rank)
    yield from (line(one, columns) for one in ends)
    yield f"outcomes {len(ends)}"
    yield "complete"
    yield "stuck" if is_stuck else "always can end"
    yield from (f"unwritten {address:08x}" for _, address, _ in unwritten)
    if asked is not None or question == "never-stuck":
        truths = [holds(asked, one, columns) for one in ends] if asked is not None else []
        yield conditions.answer(question, truths, True, is_stuck)[0]


def main(words):
    words, question, exists = list(words), "exists", None
    if "--never-stuck" in words:
        words.remove("--never-stuck")
        question = "never-stuck"
    options = dict(zip(words[1::2], words[2::2]))
    for one in ("exists", "forall", "never"):
        if f"--{one}" in options:
            question, exists = one, options[f"--{one}"]
    config = b""
    if "--config" in options:
        with open(options["--config"], "rb") as file:
            config = file.read()
    settings = inputs.read_config(config)
    with open(words[0], "rb") as file:
        contents = file.read()
    made = image.load(contents, settings["ram"])
    try:
        symbols = names_with_files(contents) or []
    except Damaged:
        symbols = []
    try:
        text = ""
        for text in lines(made, settings["harts"], options.get("--watch", ""), exists, symbols=symbols, question=question):
            print(text)
        if exists is not None or question == "never-stuck":
            said = text.split(": ")[1].split(",")[0]
            return {"yes": 0, "no": 1, "unknown": 3}[said]
    except NoHart as hart:
        sys.stderr.write(f"smtsim: no hart {hart}\n")
        return 2
    except conditions.Refused as why:
        sys.stderr.write(f"smtsim: condition refused at column {why.column}: expected {why.expected}\n")
        return 2
    return 0


if __name__ == "__main__":
    sys.exit(main(sys.argv[1:]))
