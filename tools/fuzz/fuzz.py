"""The built program beside the models of tools/expected, on random inputs, half of them damaged.

    python3 tools/fuzz/fuzz.py PROGRAM [--seconds N] [--seed S] [--kind KIND] [--folder FOLDER] [--closed]

Each case is files and a command line of one kind (cases.py); in every second one a file is damaged (damage.py).
Output, standard error and exit status have to be the model's. A case that differs is made smaller (smaller.py)
and left in FOLDER with what the two said; the exit status is then 1. Case K of a seed and kind is always the
same. With --closed it is made with standard streams closed, of input, output and error each set in turn, and has to
do what is wanted there (tools/every_command.py). Three of four cases ask for hints too (`never`, `always`, `json`): the fault's line and the
status stay the model's, and what stands behind the line has the form of a hint (tools/expected/hints.py). It ends after N seconds,
60 where nothing is said, and prints how many cases of each kind there were, and how many the model had no time for.
"""

import argparse
import os
import subprocess
import sys
import tempfile
import time

HERE = os.path.dirname(os.path.abspath(__file__))
sys.path[:0] = [os.path.join(HERE, "..", "expected"), os.path.join(HERE, "..")]

import cases
import smaller
from cases import TooLong
from hints import without_hint
from every_command import STREAMS, Done, expected, is_whole_or_none, told as told_streams


def put(folder, files):
    for name in os.listdir(folder):
        os.remove(f"{folder}/{name}")
    for name, data in files.items():
        with open(f"{folder}/{name}", "wb") as file:
            file.write(data)


def hints_of(case):
    """What a case asks of hints: in three of four something, whatever the model knows of them."""
    return (None, "never", "always", "json")[case.number % 4]


def by_program(program, folder, line, closed, hints=None):
    """What the program says of a line: of a fault its line, where what stands behind is the hint that was asked for, or none."""
    def close():
        for stream in closed:
            os.close(stream)

    how = {"preexec_fn": close} if closed else {}
    asked = ["--hints", hints] if hints else []
    try:
        done = subprocess.run([program, *line, *asked], cwd=folder, capture_output=True, check=False, timeout=120, **how)
    except subprocess.TimeoutExpired:
        return "", "no answer within 120 seconds", -1
    err = without_hint(done.stderr, done.returncode, hints) if hints else done.stderr
    return done.stdout.decode("latin-1"), err.decode("latin-1"), done.returncode


def written(folder, name):
    """What is in the file that was written, which is taken away; None where there is none."""
    if name is None or not os.path.exists(f"{folder}/{name}"):
        return None
    with open(f"{folder}/{name}", "rb") as file:
        found = file.read()
    os.remove(f"{folder}/{name}")
    return found


def both(program, folder, case, closed):
    """What the program says of a case and writes, and what it has to, by the model."""
    kind = case.kind
    put(folder, case.files)
    found = (*by_program(program, folder, case.line, closed, hints_of(case)), written(folder, kind.writes))
    by_model = by_program(program, folder, case.line, ()) if kind.model is None else kind.said(folder, case.line)
    wanted = where_closed((*by_model, written(folder, kind.writes)), closed, found[3])
    if kind.varies:
        return regular(found), regular(wanted)
    return (kind.known(found[0]), *found[1:]), (kind.known(wanted[0]), *wanted[1:])


def where_closed(said, closed, found):
    """What an answer is with these streams closed. A file may be whole then or not be there, where the output fails."""
    out, err, status, file = said
    wanted = expected(Done(status, out.encode("latin-1"), err.encode("latin-1"), file), closed)
    if wanted.status == 5 and status != 5 and is_whole_or_none(found, file):
        wanted = wanted._replace(written=found)
    return wanted.out.decode("latin-1"), wanted.err.decode("latin-1"), wanted.status, wanted.written


def regular(said):
    """What is the same in each run by threads: whether it prints, what it complains of, whether it fails."""
    out, err, status, _ = said
    return out != "", err, status if status in (2, 5) else "ended"


def differs(program, folder, case, closed):
    try:
        found, wanted = both(program, folder, case, closed)
    except TooLong:
        return False
    return found != wanted


def told(folder, seed, case, said, closed):
    """Leaves a case that differs in a folder of its own."""
    place = f"{folder}/{case.kind.name}_{seed}_{case.number}"
    os.makedirs(place, exist_ok=True)
    put(place, case.files)
    texts = {"words": " ".join(case.line), "streams": told_streams(closed), "program": repr(said[0]), "model": repr(said[1])}
    for name, text in texts.items():
        with open(f"{place}/{name}.said", "w", encoding="utf-8") as file:
            file.write(text + "\n")
    print(f"case {case.number} of seed {seed}, {case.kind.name}, differs: {place}", flush=True)


def run(program, seconds, seed, kinds, folder, closes):
    counts, late, bad, number = dict.fromkeys(kinds, 0), 0, 0, 0
    end = time.monotonic() + seconds
    with tempfile.TemporaryDirectory() as scratch:
        while time.monotonic() < end:
            for name in kinds:
                case = cases.case(name, seed, number)
                closed = STREAMS[number % len(STREAMS)] if closes else ()
                try:
                    found, wanted = both(program, scratch, case, closed)
                except TooLong:
                    late += 1
                    continue
                counts[name] += 1
                if found != wanted:
                    bad += 1
                    least = case
                    if case.kind.model is not None:
                        least = smaller.smaller(case, lambda one, closed=closed: differs(program, scratch, one, closed))
                    told(folder, seed, least, both(program, scratch, least, closed), closed)
            number += 1
    said = ", ".join(f"{name} {count}" for name, count in counts.items())
    print(f"seed {seed}: {sum(counts.values())} cases ({said}), {bad} differ; no time for {late}")
    return 1 if bad else 0


def main(words):
    line = argparse.ArgumentParser(description=__doc__, formatter_class=argparse.RawTextHelpFormatter)
    line.add_argument("program")
    line.add_argument("--seconds", type=int, default=60)
    line.add_argument("--seed", type=int, default=1)
    line.add_argument("--kind", choices=[*cases.KINDS, *cases.CLOSED_KINDS])
    line.add_argument("--folder", default=tempfile.gettempdir() + "/fuzz")
    line.add_argument("--closed", action="store_true")
    asked = line.parse_args(words)
    kinds = [asked.kind] if asked.kind else [*cases.KINDS, *(cases.CLOSED_KINDS if asked.closed else [])]
    return run(os.path.abspath(asked.program), asked.seconds, asked.seed, kinds, asked.folder, asked.closed)


if __name__ == "__main__":
    sys.exit(main(sys.argv[1:]))
