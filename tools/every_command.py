"""Runs of each command of the program, and what each has to do where standard streams are closed. No part of the program.

Used by tools/refuse_allocations.py, tools/interrupt_calls.py and tools/fuzz.
"""

import os
import re
import subprocess
from typing import NamedTuple

ROOT = os.path.dirname(os.path.dirname(os.path.abspath(__file__)))
EXAMPLES = os.path.join(ROOT, "examples")
DESCRIPTION = os.path.join(ROOT, "crates", "sim_inputs", "src", "description.rt")

# Each set of standard streams that may be closed: input, output and error, alone and together.
STREAMS = [(0,), (1,), (2,), (0, 1), (0, 2), (1, 2), (0, 1, 2)]
NAMES = {0: "input", 1: "output", 2: "error"}

FILE = b"smtsim: file\n"

OVERTAKEN = "overtaken/overtaken.elf"
FIRST = "first/first.elf first/first.script --config first/first.toml"
PASSING = "litmus/message_passing.elf"
TWO = "--config litmus/two.toml"

# What each run is called, and its words; OUT is the file, or the folder, that it writes, and INPUT says what it reads as `-`.
RUNS = {
    "step": f"step {FIRST}",
    "step_all": f"step {OVERTAKEN} overtaken/overtaken.script --config overtaken/two.toml --records --show --looks --trace OUT",
    "step_why": f"step {FIRST} --why",
    "step_json": f"step {FIRST} --json --counts",
    "step_input": "step first/first.elf - --config first/first.toml",
    "run": "run arithmetic/gcd.elf",
    "run_trace": "run first/first.elf --trace OUT",
    "run_times": "run first/first.elf --times 2 --keep OUT",
    "plain": f"plain {PASSING} ORDER {TWO} --records",
    "plain_rounds": f"plain {PASSING} --rounds 1 {TWO} --records",
    "schedule": f"schedule {PASSING} ORDER {TWO}",
    "check": f"check {OVERTAKEN} TRACE --config overtaken/two.toml --records",
    "check_why": "check first/first.elf TRACE --config overtaken/two.toml --why",
    "script": f"script {OVERTAKEN} TRACE --config overtaken/two.toml",
    "migrate": "migrate traces/overtaken_version_1.trace OUT --config overtaken/two.toml",
    "chart": f"chart {OVERTAKEN} TRACE --config overtaken/two.toml",
    "chart_rounds": f"chart {OVERTAKEN} TRACE --config overtaken/two.toml --columns rounds --registers --counters",
    "chart_svg": f"chart {OVERTAKEN} TRACE --config overtaken/two.toml --svg OUT",
    "chart_dark": f"chart {OVERTAKEN} TRACE --config overtaken/two.toml --svg OUT --dark --title overtaken",
    "chart_kanata": f"chart {OVERTAKEN} TRACE --config overtaken/two.toml --kanata OUT",
    "list": "list first/first.elf",
    "list_input": "list -",
    "explain": "explain first/first.elf --config first/first.toml",
    "explain_trace": "explain first/first.elf --config first/first.toml --trace TRACE",
    "explain_refused": "explain first/first.script --config first/first.elf",
    "explain_script": "explain first/first.elf --config first/first.toml --script first/first.script",
    "explain_order": f"explain {PASSING} --order ORDER {TWO}",
    "outcomes": "outcomes locks/swap.elf --config locks/two.toml --watch 80001004:4 --exists h0=16",
    "outcomes_how": "outcomes locks/c/lock.elf --config locks/two.toml --how",
    "outcomes_without": "outcomes locks/swap.elf --config locks/two.toml --without RX,J --how",
    "outcomes_witness": f"outcomes {PASSING} {TWO} --outcome 2 --witness OUT",
    "outcomes_script": f"outcomes {PASSING} {TWO} --outcome 3 --script OUT",
    "litmus": "litmus litmus/LRSC.litmus",
    "litmus_why": "litmus litmus/SB.litmus --why",
    "litmus_svg": "litmus litmus/SB.litmus --svg OUT",
    "litmus_image": "litmus litmus/SB.litmus --image OUT",
    "refused_words": "step",
    "refused_image": "list first/first.script",
    "refused_words_hint": "step --hints always",
    "refused_image_hint": "list first/first.script --hints json",
    "refused_script_hint": "step first/first.elf first/first.toml --hints always",
    "refused_file_hint": "list nowhere --hints always",
    "help": "--help",
}
INPUTS = {"step_input": "first/first.script", "list_input": "first/first.elf"}
# Those that tell more beside a refusal, where there is memory for it.
TELLING = ("check_why", "explain_trace")
WITH_THREADS = ("run", "run_trace", "run_times")


class Done(NamedTuple):
    """What a run did: its status, what it printed, and what is in the file that it writes, or by name in the files of the folder; None
    where there is none."""

    status: int
    out: bytes
    err: bytes
    written: object


def without_a_run():
    """The commands of the program that no run is of."""
    with open(DESCRIPTION, encoding="utf-8") as file:
        commands = re.findall(r'Subcommand \{\s*name: "(\w+)"', file.read())
    return [name for name in commands if not any(words.split()[0] == name for words in RUNS.values())]


def prepared(program, folder):
    """Makes the order and the trace that runs read."""
    with open(os.path.join(folder, "order"), "w", encoding="ascii") as order:
        order.write("0 1 0 1 0 1\n")
    words = f"step {OVERTAKEN} overtaken/overtaken.script --config overtaken/two.toml --trace".split()
    subprocess.run([program, *words, os.path.join(folder, "trace")], cwd=EXAMPLES, capture_output=True, check=False)


def read_bytes(path):
    with open(path, "rb") as file:
        return file.read()


def written_at(path):
    """What is at this path: bytes, or by name the files of a folder. Where the program has left a file beside them, that."""
    for folder in (os.path.dirname(path), path):
        if os.path.isdir(folder) and any(name.startswith(".smtsim-") for name in os.listdir(folder)):
            return "left beside"
    if os.path.isdir(path):
        return {name: read_bytes(os.path.join(path, name)) for name in sorted(os.listdir(path))}
    return read_bytes(path) if os.path.exists(path) else None


def taken_away(path):
    if os.path.isdir(path):
        for name in os.listdir(path):
            os.remove(os.path.join(path, name))
        os.rmdir(path)
    elif os.path.exists(path):
        os.remove(path)


def is_whole_or_none(part, whole):
    """Whether what was written is the whole file, or nothing; of a folder, whether each file in it is."""
    if isinstance(whole, dict):
        return part is None or isinstance(part, dict) and all(part[name] == whole.get(name) for name in part)
    return part is None or part == whole


class Kind:
    """One kind of run."""

    def __init__(self, program, folder, name):
        self.program, self.name = program, name
        self.out = os.path.join(folder, name + ".out")
        places = {"OUT": self.out, "TRACE": os.path.join(folder, "trace"), "ORDER": os.path.join(folder, "order")}
        self.words = [places.get(word, word) for word in RUNS[name].split()]
        self.has_threads = name in WITH_THREADS
        self.tells = name in TELLING
        self.input = INPUTS.get(name)
        self.hints = self.words[-1] if "--hints" in self.words else None

    def run(self, closed=(), **settings):
        """What it does with these streams closed, and with these settings of its environment."""
        taken_away(self.out)

        def close():
            for stream in closed:
                os.close(stream)

        with open(os.path.join(EXAMPLES, self.input) if self.input else os.devnull, "rb") as source:
            done = subprocess.run(
                [self.program, *self.words], cwd=EXAMPLES, env={**os.environ, **settings}, stdin=source, capture_output=True,
                timeout=60, check=False, preexec_fn=close if closed else None,
            )  # fmt: skip
        return Done(done.returncode, done.stdout, done.stderr, written_at(self.out))

    def is_same(self, found, wanted):
        """Whether both did the same; of a run with threads, each of which has another history, up to that; a hint may be left out."""
        if self.hints and found.err == wanted.err.partition(b"\n")[0] + b"\n":
            found = found._replace(err=wanted.err)
        if not self.has_threads:
            return found == wanted
        return (found.status, found.err) == (wanted.status, wanted.err) and bool(found.out) == bool(wanted.out)

    def is_as_it_should(self, found, usual, closed):
        """Whether it did with closed streams what it should, where it usually does this."""
        wanted = expected(usual, closed, self.input is not None)
        if wanted.status != 5 or usual.status == 5:
            return self.is_same(found, wanted)
        return found[:3] == wanted[:3] and (self.has_threads or is_whole_or_none(found.written, usual.written))


def expected(usual, closed, reads_input=False):
    """What a run has to do with these streams closed that usually does this: what is read there can't be read, what is printed there
    can't be printed, and what is told there is told to nobody; no stream's bytes come anywhere else."""
    fails = (0 in closed and reads_input) or (1 in closed and usual.out)
    done = Done(5, b"", FILE, None) if fails else usual
    return done._replace(err=b"") if 2 in closed else done


def told(closed):
    return "standard " + " and ".join(NAMES[stream] for stream in closed) + " closed" if closed else "all streams open"
