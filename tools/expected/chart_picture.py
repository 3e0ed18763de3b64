"""What picture.py has to read from a picture of `smtsim chart --svg FILE`.

    chart_picture.py IMAGE TRACE [--config FILE] [--from N] [--to N] [--hart H] [--width W]
                     [--columns rounds] [--title TEXT] [--names] [--registers] [--counters]

Written from docs/FORMATS.md over the second judge's definitions, as chart.py: the rows are that one's, and what squashed an
instruction, which store wrote between the looks of a load, and the rounds are found here anew.
"""

import argparse
import sys

import chart
import judge
import labels
from judge_inputs import Complete, Fetch, Refetch, Refused, Retire

# The eight colours of Okabe and Ito for harts 0 to 7, with a grey for black.
COLOURS = ("#e69f00", "#56b4e9", "#009e73", "#f0e442", "#0072b2", "#d55e00", "#cc79a7", "#888888")
ROUND = "a column is a round: the longest run of events in which no actor and no instruction comes twice; no cycles"
PLACES = {"F": "fetched", "D": "decoded", "R": "renamed", "I": "issued", "C": "completed", "T": "retired", "G": "refetched"}


def look_of(hart):
    """The colour of a hart, and its mark."""
    return f"{COLOURS[hart % 8]}{' marked' if hart > 7 else ''}"


def last_of(row):
    """The last place in which something stands; none where it goes on."""
    return row.at.get("T", row.at.get("X", row.squash))


class Drawn:
    """A history in columns."""

    def __init__(self, history, asked):
        self.history, self.events, self.hart = history, history.events, asked.hart
        chart.Row.columns = chart.Columns(history, False)
        self.rows = chart.rows_of(history)
        self.has_registers, self.has_counters = asked.registers, asked.counters
        self.columns = self.rounds() if asked.columns == "rounds" else list(range(len(self.events)))
        last = min(asked.last, len(self.events) - 1)
        self.is_empty = asked.first > last
        if not self.is_empty:
            self.first, self.last = self.columns[asked.first], self.columns[last]
        self.width = asked.width

    def marks(self, row):
        return set(row.at.values()) | ({row.squash} - {None})

    def rounds(self):
        """The column of each event: a new one where the event's actor or a row that it marks has been in the last."""
        marked = [{row.number for row in self.rows if n in self.marks(row)} for n in range(len(self.events))]
        columns, actors, seen = [], set(), set()
        for n, event in enumerate(self.events):
            if event.actor in actors or marked[n] & seen:
                columns.append(columns[-1] + 1)
                actors, seen = set(), set()
            else:
                columns.append(columns[-1] if columns else 0)
            actors.add(event.actor)
            seen |= marked[n]
        return columns

    def column(self, place):
        return None if place is None else self.columns[place]

    def head(self, column):
        return self.columns.index(column)

    def is_shown(self, row, first, last):
        if self.hart not in (None, row.hart) or self.column(row.at["F"]) > last:
            return False
        return last_of(row) is None or first <= self.column(last_of(row))

    def shown(self):
        return [] if self.is_empty else [row for row in self.rows if self.is_shown(row, self.first, self.last)]

    # ---- Causes and looks

    def cause(self, row):
        """Why it was squashed, in short."""
        event = self.events[row.squash]
        if isinstance(event, Complete):
            return f"mispredicted by {row.by}"
        if isinstance(event, Refetch):
            return "refetched" if row.by == row.number else f"refetched by {row.by}"
        if event.effect.next[0] == "p":
            return f"replayed by {row.by}"
        return f"hart {row.hart} {'ended' if event.effect.next[0] == 'e' else 'stopped'}"

    def whole_cause(self, row):
        event = self.events[row.squash]
        if not isinstance(event, Complete):
            return self.cause(row)
        return f"{self.cause(row)}: to {event.outcome.next[1]:08x}, predicted {self.rows[row.by].fetch.predicted:08x}"

    def store(self, row):
        """The place of the last write between the looks of a load that shares a byte with it."""
        if row.op.kind != "loading" or "T" not in row.at:
            return None
        address = self.events[row.at["C"]].outcome.address
        for n in range(row.at["T"] - 1, row.at["C"], -1):
            event = self.events[n]
            write = event.effect.write if isinstance(event, Retire) else None
            if write is not None and address is not None and max(address, write[0]) < min(address + row.op.size, write[0] + write[1]):
                return n
        return None

    def writer(self, row):
        return self.rows[self.events[self.store(row)].seq]

    def are_in(self, row, first, last):
        """Whether its retirement is in these columns."""
        return self.hart in (None, row.hart) and "T" in row.at and first <= self.column(row.at["T"]) <= last

    def arrows(self):
        """The loads with arrows, and their stores."""
        for row in self.shown():
            if row.replayed and all(self.are_in(one, self.first, self.last) for one in (row, self.writer(row))):
                yield row, self.writer(row)

    # ---- The lines

    def cells(self, row, first, last):
        """What stands in these columns, up to its end."""
        letters = {self.column(place): letter for letter, place in row.at.items()}
        if row.squash is not None:
            letters.setdefault(self.column(row.squash), "x")
        over = min([self.column(p) for p in (row.at.get("T"), row.squash) if p is not None], default=last + 1)
        stop = last if last_of(row) is None else min(last, self.column(last_of(row)))
        begin = self.column(row.at["F"])
        return "".join(letters.get(n, "." if begin < n < over else " ") for n in range(first, stop + 1))

    def row_line(self, names, row, first, last):
        line = names.of(row) + self.cells(row, first, last)
        if row.squash is not None and first <= self.column(row.squash) <= last:
            line += f" {self.cause(row)}"
        if row.replayed and self.are_in(row, first, last):
            store = next((store for load, store in self.arrows() if load is row), None)
            line += "" if store is None or self.are_in(store, first, last) else f" from {store.number}"
            line += " replayed"
        ends = [self.column(place) for place in (row.at.get("T"), row.squash) if place is not None]
        begin, end = self.column(row.at["F"]), min(ends, default=None)
        if end is not None and end < first:
            return line
        left, right = "<" if begin < first else "", ">" if end is None or end > last else ""
        pale = " pale" if row.squash is not None and self.column(row.squash) <= self.last else ""
        return f"{line} [{left}{look_of(row.hart)}{pale}{right}]"

    def looks(self, first, last):
        """The rings and the arrows of a band, whose columns count from its first."""
        at = lambda row: self.column(row.at["T"]) - first
        for row in self.shown():
            if self.are_in(row, first, last) and self.store(row) is not None:
                yield f"ring {'again' if row.replayed else 'same'} {row.number} at {at(row)}"
        for load, store in self.arrows():
            if self.are_in(store, first, last):
                to = f"{load.number} at {at(load)}" if self.are_in(load, first, last) else "behind"
                yield f"arrow from {store.number} at {at(store)} to {to}"
            elif self.are_in(load, first, last):
                yield f"arrow from before to {load.number} at {at(load)}"

    def bands(self):
        names = chart.Names(self.rows, self.shown())
        columns = max(1, min(self.last - self.first + 1, self.width))
        for first in range(self.first, self.last + 1, columns):
            last = min(self.last, first + columns - 1)
            rows = [row for row in self.rows if self.is_shown(row, first, last)]
            if rows:
                ruler = " " * names.room
                for column in range(first, last + 1):
                    if column % 10 == 0:
                        ruler = ruler.ljust(names.room + column - first) + str(self.head(column))
                yield ruler.rstrip()
                yield from (self.row_line(names, row, first, last) for row in rows)
                yield from self.looks(first, last)
                yield from self.strips(first, last)
                yield ""

    def strips(self, first, last):
        """The heights of the strips of a band, 14 of the highest number behind an event that is drawn."""
        if not self.has_counters:
            return
        history, counted = self.history, chart.Counted
        counted.history = history
        harts = [h for h in range(history.harts) if self.hart in (None, h)]
        parts = [(f"ICOUNT {h}", lambda n, h=h: history.icount(n, h)) for h in harts] + [("chosen", None)]
        parts += [(f"queue {unit}", lambda n, unit=unit: counted.waiting(n, unit)) for unit in ("alu", "mul", "mem")]
        parts += [(f"in flight {h}", lambda n, h=h: len(history.flight(n, h))) for h in harts] + [("free", counted.free)]
        drawn = [n + 1 for n, column in enumerate(self.columns) if self.first <= column <= self.last]
        behind = [max(n for n, column in enumerate(self.columns) if column == one) + 1 for one in range(first, last + 1)]
        for name, count in parts:
            if count is None:
                yield f"chosen: {self.chosen(first, last)}".rstrip()
            else:
                highest = max(map(count, drawn))
                heights = [14 * count(n) // highest if highest else 0 for n in behind]
                yield f"{name}, highest {highest}: {' '.join(map(str, heights))}"

    def chosen(self, first, last):
        harts = {column: f"{event.hart:x}" for event, column in zip(self.events, self.columns) if isinstance(event, Fetch)}
        return "".join(harts.get(column, ".") for column in range(first, last + 1)).rstrip(".")

    def title(self, row):
        """What a browser shows of a row."""
        beside = "" if chart.Names.beside is None else " " + chart.Names.beside(row.fetch.pc)
        yield f"number {row.number} of hart {row.hart}: {row.fetch.pc:08x} {row.text}{beside}"
        yield ", ".join(f"{said} {row.at[letter]}" for letter, said in PLACES.items() if letter in row.at)
        if self.has_registers and "R" in row.at:
            yield from self.registers(row)
        if row.squash is not None:
            yield f"squashed {row.squash} by number {row.by}" + (f", handed back {row.at['X']}" if "X" in row.at else "")
            yield self.whole_cause(row)
        if self.store(row) is None:
            return
        if row.replayed:
            first, second = self.events[row.at["C"]].outcome.value, self.events[row.at["T"]].effect.value
            yield f"replayed: its first look found {first:08x}, its second {second:08x}"
        else:
            yield "looked again: the same"
        yield f"number {self.writer(row).number} of hart {self.writer(row).hart} wrote at event {self.store(row)}"

    def registers(self, row):
        """What an instruction found as it was renamed."""
        past = row.at["R"]
        if self.events[past].phys is not None:
            yield f"writes x{row.op.rd} to register {self.events[past].phys}"
        for r in dict.fromkeys((row.op.first, row.op.second)):
            if r:
                by = self.history.source(past, row.hart, r, row.number)
                physical = self.history.register_by(past, row.hart, r, by)
                told = "as it was at the start" if by is None else f"which number {by} writes"
                yield f"reads x{r} from register {physical}, {told}"

    def lines(self, asked):
        file_of = lambda name: name.rsplit("/", 1)[-1]
        yield asked.title or f"{file_of(asked.image)}, {file_of(asked.trace)}"
        one = "" if self.hart is None else f", instructions of hart {self.hart}"
        count = len(self.events)
        if self.is_empty:
            yield f"no events of {count}"
        else:
            behind = max(n for n, column in enumerate(self.columns) if column == self.last)
            yield f"events {self.head(self.first)} to {behind} of {count}{one}"
        yield ROUND if asked.columns == "rounds" else "a column is an event: no cycles"
        for hart in sorted({row.hart for row in self.shown()}):
            yield f"hart {hart} {look_of(hart)}"
        if not self.is_empty:
            yield from self.bands()
        for row in self.shown():
            yield from self.title(row)


def main(words):
    line = argparse.ArgumentParser()
    line.add_argument("image")
    line.add_argument("trace")
    line.add_argument("--config")
    line.add_argument("--from", type=int, default=0, dest="first")
    line.add_argument("--to", type=int, default=2**24, dest="last")
    line.add_argument("--hart", type=int)
    line.add_argument("--width", type=int, default=120)
    line.add_argument("--columns", choices=("events", "rounds"), default="events")
    line.add_argument("--title")
    line.add_argument("--names", action="store_true")
    line.add_argument("--registers", action="store_true")
    line.add_argument("--counters", action="store_true")
    asked = line.parse_args(words)
    try:
        image, settings, events = judge.read(asked.image, asked.trace, asked.config)
        judge.judged(image, settings, events)
    except Refused as refused:
        print(f"smtsim: {refused.said}", file=sys.stderr)
        return refused.status
    with open(asked.image, "rb") as file:
        found = labels.Labels(file.read(), True, None)
    chart.Names.beside = found.name_of if asked.names else None
    history = judge.Rules(settings, image, events)
    chart.Names.registers = (lambda row: chart.registers_of(history, row)) if asked.registers else None
    drawn = Drawn(history, asked)
    sys.stdout.writelines(f"{said}\n" for said in drawn.lines(asked))
    return 0


if __name__ == "__main__":
    sys.exit(main(sys.argv[1:]))
