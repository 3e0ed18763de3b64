#!/usr/bin/env python3
"""refuse_allocations.py PROGRAM [--closed] [NAME ..]: refuses each allocation of runs of the built program in turn.

The k-th allocation is refused, k = 1, 2, .., until a run makes fewer. What each run has to do then: end with status 5 and the line
`smtsim: memory` (a run with threads also `smtsim: thread`), having printed no more than a beginning of what it prints otherwise, and no
trace, picture or log but a whole one or one whose fault was told; or do just what it does otherwise, where it can do without, but for
a hint, or what it tells beside the refusal of a trace, which may be left out. With `--closed` each run is made so with standard input,
output and error closed, alone and together, and first with nothing refused. The
runs, of every command, are those of tools/every_command.py. Prints what differs, and a line for each kind of run: how many allocations
were refused. Ends with 1 where one differed.

The library that refuses is tools/refuse_allocations.c, built by the machine's own compiler: no part of the program.
"""

import os
import shutil
import subprocess
import sys
import tempfile

sys.path.insert(0, os.path.join(os.path.dirname(os.path.abspath(__file__)), "expected"))

from hints import without_hint
from every_command import ROOT, RUNS, STREAMS, Kind, is_whole_or_none, prepared, told, without_a_run

MEMORY, THREAD = b"smtsim: memory\n", b"smtsim: thread\n"


def build(folder):
    library = os.path.join(folder, "refuse_allocations.so")
    source = os.path.join(ROOT, "tools", "refuse_allocations.c")
    subprocess.run(["cc", "-O1", "-shared", "-fPIC", "-o", library, source, "-ldl"], check=True)
    return library


class Refusing:
    """A kind of run, with these streams closed, whose allocations are refused."""

    def __init__(self, kind, library, folder, closed):
        self.kind, self.library, self.closed = kind, library, closed
        self.note = os.path.join(folder, "note")
        self.open = kind.run()
        self.usual = kind.run(closed)

    def run(self, refused):
        """What it does, and whether an allocation was refused."""
        if os.path.exists(self.note):
            os.remove(self.note)
        settings = {"REFUSED_NOTE": self.note, "LD_PRELOAD": self.library, "REFUSED_ALLOCATION": str(refused)}
        return self.kind.run(self.closed, **settings), os.path.exists(self.note)

    def lacks_memory(self, found):
        """Whether it said so, behind no more than a beginning of what it does."""
        said = [MEMORY] + [THREAD] * self.kind.has_threads
        if 2 in self.closed:
            said = [b""]
        is_part = self.kind.has_threads or self.open.out.startswith(found.out) and is_whole_or_none(found.written, self.open.written)
        err = without_hint(found.err, found.status, self.kind.hints) if self.kind.hints else found.err
        return found.status == 5 and err in said and is_part

    def tells_less(self, found):
        """Whether it did what it does, and left out what it tells beside a refusal."""
        err = b"" if 2 in self.closed else self.open.err
        return self.kind.tells and (found.status, found.err) == (self.open.status, err) and self.open.out.startswith(found.out)

    def is_as_it_should(self, found):
        return self.lacks_memory(found) or self.tells_less(found) or self.kind.is_as_it_should(found, self.open, self.closed)

    def differs(self, found, when):
        words = " ".join(self.kind.words)
        print(f"{words}: {told(self.closed)}, {when}: status {found.status}, {found.out[-80:]!r}, {found.err!r}")
        return 1

    def refuse_each(self):
        """How many allocations were refused, and how many of these runs did what they shouldn't."""
        refused, wrong = 0, 0
        if not self.kind.is_as_it_should(self.usual, self.open, self.closed):
            wrong += self.differs(self.usual, "nothing refused")
        while True:
            found, was_refused = self.run(refused + 1)
            if not was_refused:
                return refused, wrong
            refused += 1
            if not self.is_as_it_should(found):
                wrong += self.differs(found, f"allocation {refused}")


def main(words):
    if not words:
        print(__doc__, file=sys.stderr)
        return 2
    closes = "--closed" in words
    program, *names = [word for word in words if word != "--closed"]
    program = os.path.abspath(program)
    total, wrong = 0, len(without_a_run())
    for name in without_a_run():
        print(f"no run of the command {name}")
    with tempfile.TemporaryDirectory() as folder:
        library = build(folder)
        prepared(program, folder)
        for name in names or RUNS:
            refused, differed = 0, 0
            for closed in STREAMS if closes else [()]:
                more, others = Refusing(Kind(program, folder, name), library, folder, closed).refuse_each()
                refused, differed = refused + more, differed + others
            print(f"{name}: {refused} allocations refused, {differed} not as they should", flush=True)
            total, wrong = total + refused, wrong + differed
    print(f"{total} allocations refused, {wrong} not as they should")
    return 1 if wrong else 0


sys.exit(main(sys.argv[1:]))
