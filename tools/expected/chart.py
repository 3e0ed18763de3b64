"""The chart of a trace, as `smtsim chart` has to draw it: the text, and with --kanata the log for Konata. What its picture
has to show says chart_picture.py.

    chart.py IMAGE TRACE [--config FILE] [--from N] [--to N] [--hart H] [--names] [--width W]
             [--columns events | --columns rounds] [--registers] [--counters] [--kanata]

Written from docs/FORMATS.md over the second judge's definitions (judge_history.py): which event squashed
an instruction is the first of which `squashes` says so, and what is counted at a column, or found as an
instruction is renamed, are the definitions of the history up to there. Only the spelling of an
instruction is that of the model (instructions.py). A trace that isn't legal is refused as judge.py
refuses it.
"""

import argparse
import sys

import judge
import labels
from instructions import spelled
from judge_history import SQUASHED
from judge_inputs import Complete, Decode, Drop, Fetch, Issue, Refetch, Refused, Rename, Retire
from judge_words import op_of_word

LETTERS = {Fetch: "F", Decode: "D", Rename: "R", Issue: "I", Complete: "C", Drop: "X", Retire: "T", Refetch: "G"}


class Columns:
    """The column of each event. By rounds it is the first in which none before has its actor, or a mark in one of its
    rows: that of its own instruction, and those of the ones that it squashes."""

    def __init__(self, history, by_rounds):
        fetched, self.of, actors, marked = [], [], set(), set()
        for place, event in enumerate(history.events):
            rows = {event.seq} | {s for s in fetched if self.is_squash(history, place, s)}
            if self.of and (not by_rounds or event.actor in actors or rows & marked):
                actors, marked = set(), set()
                self.of.append(self.of[-1] + 1)
            else:
                self.of.append(self.of[-1] if self.of else 0)
            actors.add(event.actor)
            marked |= rows
            if isinstance(event, Fetch):
                fetched.append(event.seq)

    @staticmethod
    def is_squash(history, place, s):
        return history.squashes(place, s) and history.fate(place, s) != SQUASHED

    def places(self, column):
        return [place for place, of in enumerate(self.of) if of == column]


class Row:
    """An instruction: its fetch, the letters under its events, and what squashed it, which may be its own refetch. What
    begins with `in_` counts columns."""

    columns = None  # the columns of the chart

    def __init__(self, history, fetch):
        self.history, self.fetch, self.number, self.hart = history, fetch, fetch.seq, fetch.hart
        self.at = {LETTERS[type(e)]: n for n, e in enumerate(history.events) if e.seq == fetch.seq}
        self.squash = next((n for n in range(len(history.events)) if history.squashes(n, fetch.seq)), None)
        self.by = None if self.squash is None else history.events[self.squash].seq
        self.replayed = "T" in self.at and history.is_replayed(
            self.at["T"], self.number, history.events[self.at["T"]].effect)
        self.op = op_of_word(fetch.word)
        self.text = "-" if fetch.word is None else spelled(fetch.word, fetch.pc)
        self.in_at = {letter: Row.columns.of[place] for letter, place in self.at.items()}
        self.in_squash = None if self.squash is None else Row.columns.of[self.squash]

    def in_last(self):
        """The last column in which something stands; none where it goes on."""
        return self.in_at.get("T", self.in_at.get("X", self.in_squash))

    def cell(self, column):
        for letter, at in self.in_at.items():
            if at == column:
                return letter
        if column == self.in_squash:
            return "x"
        over = [at for at in (self.in_at.get("T"), self.in_squash) if at is not None]
        return "." if self.in_at["F"] < column and all(column < at for at in over) else " "

    def is_shown(self, first, last, hart):
        begins = first <= last and self.in_at["F"] <= last and (self.in_last() is None or first <= self.in_last())
        return begins and hart in (None, self.hart)

    def remark(self, first, last):
        """What stands behind the row in a band with these columns."""
        said = ""
        if "G" in self.at and first <= self.in_at["G"] <= last:
            said = " refetched"
        elif self.squash is not None and first <= self.in_squash <= last:
            said = f" by {self.by}"
        if self.replayed and first <= self.in_at["T"] <= last:
            said += " replayed"
        return said


def registers_of(history, row):
    """What an instruction found as it was renamed: its destination, and its sources, each once."""
    if "R" not in row.at:
        return ""
    past, found = row.at["R"], []
    given = history.events[past].phys
    if given is not None:
        found.append(f"x{row.op.rd}>p{given}")
    for r in dict.fromkeys((row.op.first, row.op.second)):
        if r:
            by = history.source(past, row.hart, r, row.number)
            found.append(f"x{r}=p{history.register_by(past, row.hart, r, by)}" + ("" if by is None else f":{by}"))
    return " ".join(found)


def rows_of(history):
    return [Row(history, e) for e in history.events if isinstance(e, Fetch)]


class Names:
    """How the names of rows are laid out: each part as wide as its widest, with a space behind."""

    beside = None  # what stands beside a pc, where names are wanted
    registers = None  # the registers of a row, where they are wanted

    def __init__(self, rows, shown):
        name_of = (lambda row: "") if Names.beside is None else (lambda row: Names.beside(row.fetch.pc) + " ")
        self.names = {row.number: name_of(row) for row in shown}
        self.name = max(map(len, self.names.values()), default=0)
        self.found = {row.number: "" if Names.registers is None else Names.registers(row) for row in shown}
        widest = max(map(len, self.found.values()), default=0)
        self.beside_name = widest + 1 if widest else 0
        self.hart = len(str(max((row.hart for row in shown), default=0)))
        self.number = len(str(max((row.number for row in rows), default=0)))
        self.text = max((len(row.text) for row in shown), default=0)
        self.room = len(self.laid_out(0, 0, 0, "")) + self.name + self.beside_name
        self.behind = max(len(remark) for remark in (" by " + "9" * self.number, " refetched"))

    def laid_out(self, hart, number, pc, text):
        return f"{hart:>{self.hart}} {number:>{self.number}} {pc:08x} {text:<{self.text}} "

    def of(self, row):
        return (self.laid_out(row.hart, row.number, row.fetch.pc, row.text) + self.names[row.number].ljust(self.name)
                + self.found[row.number].ljust(self.beside_name))


def names_of(rows, first, last, hart):
    return Names(rows, [row for row in rows if row.is_shown(first, last, hart)])


UNDER = "under the rows"


def bands(rows, first, last, hart, columns):
    """The lines of a chart in bands of so many columns, each with the row that it is of: none for what stands over the
    rows, and UNDER for what stands under them."""
    names = names_of(rows, first, last, hart)
    for start in range(first, last + 1, columns):
        end = min(last, start + columns - 1)
        if start > first:
            yield "", None
        ruler = " " * names.room
        for n in range(start, end + 1):
            if n % 10 == 0 and len(ruler) <= names.room + n - start:
                ruler = ruler.ljust(names.room + n - start) + str(Row.columns.places(n)[0])
        yield ruler, None
        for row in rows:
            if row.is_shown(start, end, hart):
                stop = end if row.in_last() is None else min(end, row.in_last())
                yield names.of(row) + "".join(row.cell(n) for n in range(start, stop + 1)) + row.remark(start, end), row
        if Counted.history is not None:
            yield from ((line, UNDER) for line in Counted.lines(names.room, start, end, hart))
        for place in range(len(Row.columns.of)):
            if start <= Row.columns.of[place] <= end:
                gone = [row for row in rows if row.squash == place and "G" not in row.at and hart in (None, row.hart)]
                if gone:
                    yield f"x at {place}: {why_squashed(rows, gone[0])}", UNDER


def why_squashed(rows, row):
    """Why the event came that squashed a row."""
    event, by = row.history.events[row.squash], rows[row.by]
    if isinstance(event, Refetch):
        return "refetched"
    if isinstance(event, Complete):
        end, *to = event.outcome.next
        assert end == "p", event
        return f"mispredicted by {row.by}: to {to[0]:08x}, predicted {by.fetch.predicted:08x}"
    if by.replayed:
        return f"replayed by {row.by}"
    return f"hart {row.hart} {'ended' if event.effect.next[0] == 'e' else 'stopped'}"


class Counted:
    """What is counted at each column: behind its last event."""

    history = None  # where it is wanted

    @classmethod
    def lines(cls, room, start, end, hart):
        harts = [h for h in range(cls.history.harts) if hart in (None, h)]
        columns = range(start, end + 1)
        behind = [Row.columns.places(column)[-1] + 1 for column in columns]
        kinds = [(f"ICOUNT {h}", [cls.history.icount(n, h) for n in behind]) for h in harts]
        kinds.append(("chosen", [cls.chosen(column) for column in columns]))
        kinds += [(f"queue {unit}", [cls.waiting(n, unit) for n in behind]) for unit in ("alu", "mul", "mem")]
        kinds += [(f"in flight {h}", [len(cls.history.flight(n, h)) for n in behind]) for h in harts]
        kinds.append(("free", [cls.free(n) for n in behind]))
        for name, numbers in kinds:
            spell = (lambda number: f"{number:x}") if name == "chosen" else str
            digits = ["" if number is None else spell(number) for number in numbers]
            tall = max(1, *map(len, digits))
            for line in range(tall):
                label = name if line == tall - 1 else ""
                yield (label.ljust(room)[:room] + "".join(digit.rjust(tall)[line] for digit in digits)).rstrip()

    @classmethod
    def chosen(cls, column):
        events = [cls.history.events[place] for place in Row.columns.places(column)]
        fetched = [event.hart for event in events if isinstance(event, Fetch)]
        return fetched[-1] if fetched else None

    @classmethod
    def waiting(cls, n, unit):
        return sum(cls.history.op_at(n, s).unit == unit for s in cls.history.queue(n))

    @classmethod
    def free(cls, n):
        registers = 31 * cls.history.harts + cls.history.settings.extra
        return sum(cls.history.claims(n, p) == 0 for p in range(registers))


def text(rows, first, last, hart, width):
    """The lines of the chart, from one column to another."""
    names = names_of(rows, first, last, hart)
    columns = max(10, width - names.room - names.behind)
    for line, _ in bands(rows, first, last, hart, columns):
        yield line


def waited_for(rows, row, register):
    """The instruction whose number for a register a renamed one had to wait for."""
    if not register:
        return None
    renamed = row.at["R"]
    for older in reversed(rows[: row.number]):
        gone = older.squash is not None and older.squash <= renamed
        if older.hart == row.hart and "R" in older.at and not gone and older.op.rd == register:
            done = older.at.get("T" if older.op.kind in ("reserving", "conditional", "atomic") else "C")
            return older if done is None or done > renamed else None
    return None


def kanata(history, rows, first, last, hart):
    """The lines of the log: the instructions that are shown, each of them whole."""
    shown = [row for row in rows if row.is_shown(first, last, hart)]
    ids = {row.number: n for n, row in enumerate(shown)}
    cycle, left = shown[0].in_at["F"] if shown else 0, 0
    stages = {}
    yield "Kanata\t0004"
    yield f"C=\t{cycle}"
    for n, e in enumerate(history.events):
        lines = []
        if e.seq in ids:
            row, id, letter = rows[e.seq], ids[e.seq], LETTERS[type(e)]
            if letter == "F":
                told = f"number {row.number} of hart {row.hart}"
                told += "" if row.by is None else f", squashed by number {row.by}"
                told += ", replayed" if row.replayed else ""
                told += ", refetched" if "G" in row.at else ""
                beside = "" if Names.beside is None else " " + Names.beside(row.fetch.pc)
                lines = [f"I\t{id}\t{row.number}\t{row.hart}", f"L\t{id}\t0\t{row.fetch.pc:08x}: {row.text}{beside}"]
                lines += [f"L\t{id}\t1\t{told}", f"S\t{id}\t0\tF"]
            elif letter != "G":
                lines = [f"E\t{id}\t0\t{stages[id]}"]
                if letter in "XT":
                    lines.append(f"R\t{id}\t{left}\t{int(letter == 'X')}")
                    left += 1
                else:
                    lines.append(f"S\t{id}\t0\t{letter}")
            stages[id] = stages[id] if letter == "G" else letter
            if letter == "I":
                for register in dict.fromkeys((row.op.first, row.op.second)):
                    other = waited_for(rows, row, register)
                    if other is not None and other.number in ids:
                        lines.append(f"W\t{id}\t{ids[other.number]}\t0")
        for row in shown:
            if row.squash == n:
                id = ids[row.number]
                lines.append(f"E\t{id}\t0\t{stages[id]}")
                if "X" in row.at:
                    lines.append(f"S\t{id}\t0\tx")
                    stages[id] = "x"
                else:
                    lines.append(f"R\t{id}\t{left}\t1")
                    left += 1
        column = Row.columns.of[n]
        if lines and column > cycle:
            yield f"C\t{column - cycle}"
            cycle = column
        yield from lines


def end_of(word, found, rows, hart, chosen):
    """The event of a number; or the first or the last one of an instruction in what a name stands for."""
    if word[:1].isdigit():
        return int(word)
    name = word[1:-1] if word[:1] == "'" else word
    places = [(start, size) for text, start, size, *_ in found.names if text.decode() == name]
    inside = [row for row in rows if hart in (None, row.hart)
              and any(start <= row.fetch.pc < start + max(size, 1) for start, size in places)]
    return chosen(place for row in inside for place in row.at.values())


def shown_columns(first, last):
    """The columns of the events that are asked for, each drawn whole."""
    return (Row.columns.of[first], Row.columns.of[last]) if first <= last else (1, 0)


def main(words):
    line = argparse.ArgumentParser()
    line.add_argument("image")
    line.add_argument("trace")
    line.add_argument("--config")
    line.add_argument("--from", default="0", dest="first")
    line.add_argument("--to", default=str(2**24), dest="last")
    line.add_argument("--names", action="store_true")
    line.add_argument("--hart", type=int)
    line.add_argument("--width", type=int, default=120)
    line.add_argument("--columns", choices=("events", "rounds"), default="events")
    line.add_argument("--registers", action="store_true")
    line.add_argument("--counters", action="store_true")
    line.add_argument("--kanata", action="store_true")
    asked = line.parse_args(words)
    try:
        image, settings, events = judge.read(asked.image, asked.trace, asked.config)
        judge.judged(image, settings, events)
        if asked.hart is not None and asked.hart >= settings.harts:
            raise Refused(f"no hart {asked.hart}", 2)
    except Refused as refused:
        print(f"smtsim: {refused.said}", file=sys.stderr)
        return refused.status
    history = judge.Rules(settings, image, events)
    Row.columns = Columns(history, asked.columns == "rounds")
    rows = rows_of(history)
    Names.registers = (lambda row: registers_of(history, row)) if asked.registers else None
    Counted.history = history if asked.counters else None
    with open(asked.image, "rb") as file:
        found = labels.Labels(file.read(), True, None)
    Names.beside = found.name_of if asked.names else None
    asked.first = end_of(asked.first, found, rows, asked.hart, min)
    asked.last = end_of(asked.last, found, rows, asked.hart, max)
    first, last = shown_columns(asked.first, min(asked.last, len(events) - 1))
    if asked.kanata:
        lines = kanata(history, rows, first, last, asked.hart)
    else:
        lines = text(rows, first, last, asked.hart, asked.width)
    sys.stdout.writelines(f"{line}\n" for line in lines)
    return 0


if __name__ == "__main__":
    sys.exit(main(sys.argv[1:]))
