"""Holds stories against records, field by field, on random programs.

    python3 tools/expected/story_compare.py PROGRAM [COUNT] [SEED]
        `plain IMAGE ORDER --records --story` of that many random programs and orders: each row of the story is of the
        record of its step, and each record that others can see has its row

A row's hart, address, size and number are those of its record: of a store what the record has written, of a load what
its register has, with its sign; a byte that was put out, and the end of a hart, are the record's. The story is read from
its text, by docs/FORMATS.md alone. What stands behind a number of a lost update or an ABA is what tables of the last
access and the last write of each byte say, of 256 rows at the most; `story.py` looks back through the rows.
"""

import os
import random
import re
import sys
import tempfile

import image
import random_runs
from instructions import LOADS, NO_WORD, SIZES, STORES, decode, signed
from plain import Plain
from random_words import some_code

ROW = re.compile(r"(\d+) +(.*)")
LOADING = {name for name, _ in LOADS.values()} | {"lr.w"}
PLAIN_STORES = {name for name, _ in STORES.values()}
STORING = PLAIN_STORES | {"sc.w"}
KEPT = 256


def read_row(line, width):
    """Number, hart and text of a row, and what earlier rows make of it."""
    number = int(line.split(" ")[0])
    rest = line[max(5, len(str(number)) + 1) :]
    spaces = len(rest) - len(rest.lstrip(" "))
    text, _, behind = rest.lstrip(" ").partition(", ")
    return number, spaces // width, text, behind


def has_row(record):
    """Whether others can see what a record did."""
    word = record[2]
    i = NO_WORD if word == "-" else decode(int(word, 16))
    return i.kind != "compute" or record[7] != "-" or record[4][0] in "es"


def faults(row, record):
    """What a row says otherwise than its record: hart, pc, word, value, next, address, number, byte."""
    _, hart, text, _ = row
    name, *fields = text.split(" ")
    value, after, address, number, out = record[3:8]
    if str(hart) != record[0]:
        yield "hart"
    if name in ("ended", "stopped"):
        if after != f"{name[0]}{int(fields[0]):08x}" and after != f"{name[0]}{fields[0]}":
            yield "end"
        return
    if after[0] != "p":
        yield "an end that isn't told"
    if name == "out":
        byte = ord(fields[0][1]) if text[4] == "'" and len(text) == 7 else int(fields[0], 16) if fields[0] else 32
        if f"{byte:02x}" != out:
            yield "byte"
        return
    i = decode(int(record[2], 16))
    if i.name != name:
        yield "name"
    if name in LOADING:
        read = int(fields[2])
        wanted = signed(read, 8 * SIZES[name]) & 0xFFFFFFFF if name in ("lb", "lh") else read
        if value != "-" and int(value, 16) != wanted or address != "-":
            yield "number read"
    elif fields[1] == "fails:":
        if address != "-" or value not in ("-", "00000001"):
            yield "failure"
    elif name in STORING:
        size = SIZES.get(name, 4)
        if (address, number) != (fields[0], f"{int(fields[2]):0{2 * size}x}"):
            yield "store"
        if name == "sc.w" and value not in ("-", "00000000"):
            yield "success"
    else:
        if (address, number) != (fields[0], f"{int(fields[3]):08x}"):
            yield "what an atomic wrote"
        if value != "-" and int(value, 16) != int(fields[1]):
            yield "what an atomic read"


def bytes_touched(name, fields):
    """The addresses of the bytes that a row's instruction has read or written; none where it did neither."""
    if name not in LOADING | STORING and not name.startswith("amo") or fields[1] == "fails:":
        return range(0)
    return range(int(fields[0], 16), int(fields[0], 16) + SIZES.get(name, 4))


class Tables:
    """Of each byte the row in which each hart has accessed it last, and that in which each has written to it last."""

    def __init__(self):
        self.rows, self.accesses, self.writes = {}, {}, {}

    def remark(self, row):
        """What the rows before make of a store or an LR."""
        number, hart, text, _ = row
        name, *fields = text.split(" ")
        if name not in PLAIN_STORES | {"lr.w"}:
            return ""
        oldest = max(number - KEPT, 1)
        touched = bytes_touched(name, fields)
        own = max(self.accesses.get(byte, {}).get(hart, 0) for byte in touched)
        others = [at for byte in touched for h, at in self.writes.get(byte, {}).items() if h != hart]
        write = max(others, default=0)
        if own < oldest or write <= own:
            return ""
        read, taken = self.rows[own], self.rows[write]
        named = f"hart {taken[1]}'s {taken[2].split(' ')[0]} at row {write}"
        if read[2].split(" ")[0] not in LOADING:
            return ""
        if name != "lr.w":
            return f"lost update: {named} came after the read at row {own}"
        same = read[2].split(" ")[0] in ("lw", "lr.w") and read[2].split(" ")[1:] == fields
        return f"ABA: as at row {own}, though {named} wrote since" if same else ""

    def hear(self, row):
        """A row was told."""
        number, hart, text, _ = row
        name, *fields = text.split(" ")
        self.rows[number] = row
        for byte in bytes_touched(name, fields):
            self.accesses.setdefault(byte, {})[hart] = number
            if name not in LOADING:
                self.writes.setdefault(byte, {})[hart] = number


def some_run(seed, k):
    """A random image without names, and an order all of whose steps are made."""
    r = random.Random(f"story {seed} {k}")
    harts = r.choice((1, 2, 2, 3, 4, 8, 16))
    data = image.build(some_code(r))
    machine, order = Plain(image.load(data, 65536), harts), []
    while len(order) < r.choice((20, 100, 400)) and (going := machine.going()):
        order.append(r.choice(going))
        machine.step(order[-1])
    return harts, data, order


def compare(program, place, harts, data, order):
    """What a story says otherwise than the records of its order, and how many rows it has."""
    files = {"image.elf": data, "order": " ".join(map(str, order)).encode()}
    for name, content in files.items():
        with open(f"{place}/{name}", "wb") as file:
            file.write(content)
    words = ["plain", "image.elf", "order", "--harts", str(harts), "--records", "--story"]
    out, _, _ = random_runs.by_program(program, place, words)
    lines = out.splitlines()
    records = [line.split(" ") for line in lines if re.fullmatch("[0-9]+ [0-9a-f]{8}( \\S+){6}", line)]
    told = lines[1 : len(lines) - len(records) - harts - 2]
    rows = [read_row(line, 24 if harts <= 4 else 8) for line in told if not line.startswith("     (")]
    counts = [int(line.split()[0].strip("(")) for line in told if line.startswith("     (")]
    seen = [record for record in records if has_row(record)]
    if len(records) != len(order) or len(seen) != len(rows) or sum(counts) + len(rows) != len(records):
        yield f"{len(rows)} rows and {sum(counts)} steps of {len(seen)} in {len(records)} records", len(rows)
        return
    if [row[0] for row in rows] != list(range(1, len(rows) + 1)):
        yield "numbers of rows", len(rows)
    tables = Tables()
    for row, record in zip(rows, seen):
        for fault in faults(row, record):
            yield f"row {row[0]}: {fault}: {row[2]}: {' '.join(record)}", len(rows)
        if row[3] != tables.remark(row):
            yield f"row {row[0]}: remark: {row[2]}, {row[3]}", len(rows)
        tables.hear(row)
    yield None, len(rows)


def main(words):
    if not words:
        print(__doc__, file=sys.stderr)
        return 2
    count, seed = int(words[1]) if len(words) > 1 else 300, int(words[2]) if len(words) > 2 else 1
    rows, wrong = 0, 0
    with tempfile.TemporaryDirectory() as place:
        for k in range(count):
            for fault, told in compare(os.path.abspath(words[0]), place, *some_run(seed, k)):
                if fault is None:
                    rows += told
                else:
                    wrong += 1
                    print(f"run {k} of seed {seed}: {fault}")
    print(f"{count} runs, {rows} rows, {wrong} disagreements")
    return 1 if wrong or not rows else 0


if __name__ == "__main__":
    sys.exit(main(sys.argv[1:]))
