"""Questions of `smtsim run --times` beside a second evaluator, on random programs.

    python3 tools/expected/runs_compare.py PROGRAM [COUNT] [SEED]

Programs, lists and conditions are those of questions_compare.py; one condition in six is damaged. The runs are the
program's own threads, so the table is read as it is printed; what is answered has to be what a second evaluator makes of
that table, with the numbers of the ends that settle it, and so has the exit status. A refusal has to be the one of
`outcomes`. Where few states are reached, each end at which no hart goes on has to be one of all ends of the program; and
the story that is kept of an end has to be that of its order, by story.py. Prints how many agree, and ends with status 1
where one doesn't.
"""

import os
import random
import re
import subprocess
import sys
import tempfile

import conditions
import every_order
import image
from outcomes_compare import inputs_of
from plain import Plain
from questions_compare import QUESTIONS, damaged, some_condition
from story import story

MOST = 2000
FIRST = re.compile(r"end (\d+) came (\d+) times(?:; (.*))?")
STANDS = re.compile(r"hart (\d+) (going|ended|stopped) ?(\d*)")


class Wrong(Exception):
    """What was printed isn't what had to come."""


def refusal(harts, watch, text):
    """What is refused of what is asked; None where nothing is."""
    try:
        asked = every_order.condition(text)
        named = [what for _, what in every_order.columns_of(watch, None) if what[0] == "register"]
        every_order.see_harts([*every_order.harts_in(asked), *named], harts)
    except conditions.Refused as why:
        return f"smtsim: condition refused at column {why.column}: expected {why.expected}\n"
    except every_order.NoHart as hart:
        return f"smtsim: no hart {hart}\n"
    return None


def see(is_so, what):
    if not is_so:
        raise Wrong(what)


def read_end(lines, harts, columns):
    """How often an end came, and what it is: statuses, numbers and output."""
    first = FIRST.fullmatch(lines[0])
    see(first, "the line of an end")
    shown = [part.rpartition("=") for part in first[3].split(", ")] if first[3] else []
    see([label for label, _, _ in shown] == [label for label, _ in columns], "what is watched")
    statuses = []
    for hart, line in enumerate(lines[1 : 1 + harts]):
        stands = STANDS.fullmatch(line)
        see(stands and int(stands[1]) == hart, "a hart")
        statuses.append((stands[2], int(stands[3]) if stands[3] else None))
    output = lines[1 + harts].removeprefix("output ")
    numbers = tuple(int(number) for _, _, number in shown)
    return int(first[2]), (tuple(statuses), numbers, tuple(bytes.fromhex("" if output == "-" else output)))


def read_table(lines, times, harts, columns):
    """The ends of a table, in its order; behind them stands the answer."""
    see(lines[0] == f"times {times}", "the first line")
    size = 2 + harts
    count = (len(lines) - 3) // size
    found = [read_end(lines[1 + size * k : 1 + size * (k + 1)], harts, columns) for k in range(count)]
    see(sum(came for came, _ in found) == times, "how often they came")
    ends = [end for _, end in found]
    see(len(set(ends)) == len(ends), "an end twice")
    see(lines[1 + size * count] == f"ends {count}" and len(lines) == 3 + size * count, "the number of ends")
    return ends


def all_ends(made, harts, columns):
    """All ends of a program; None where there are too many states."""
    try:
        return every_order.explore(made, harts, columns, MOST)[0]
    except every_order.TooMany:
        return None


def see_story(made, harts, folder, end):
    """Sees that the story that is kept of an end is that of its order."""
    with open(f"{folder}/kept/end-{end}.order", encoding="utf-8") as file:
        order = [int(line) for line in file]
    with open(f"{folder}/kept/end-{end}.story", encoding="utf-8") as file:
        kept = file.read()
    told = story(Plain(made, harts), order, lambda address: f"{address:08x}", lambda pc: "", False)
    see(kept == "".join(f"{line}\n" for line in told), f"the story of end {end}")


def see_runs(got, made, harts, watch, question, text, times, folder):
    columns = every_order.columns_of(watch, text)
    lines = got.stdout.splitlines()
    ends = read_table(lines, times, harts, columns)
    asked = every_order.condition(text)
    wanted, status = conditions.answer(question, [every_order.holds(asked, one, columns) for one in ends], False, named_as="ends")
    see((lines[-1], got.returncode, got.stderr) == (wanted, status, ""), f"wanted {wanted!r} and {status}")
    every = all_ends(made, harts, columns)
    for end, found in enumerate(ends, 1):
        see(every is None or any(kind == "going" for kind, _ in found[0]) or found in every, f"end {end} can't come")
        see_story(made, harts, folder, end)


def agrees(program, folder, seed, k):
    harts, file, watch, _ = inputs_of(seed, k)
    r = random.Random(f"runs {seed} {k}")
    question, text, times = r.choice(QUESTIONS), some_condition(r, harts), r.randint(1, 6)
    if r.random() < 1 / 6:
        text = damaged(r, text)
    for name, contents in (("image", file), ("config", f"harts = {harts}\nram = 4096\nlimit = 400\n".encode())):
        with open(os.path.join(folder, name), "wb") as out:
            out.write(contents)
    words = [program, "run", f"{folder}/image", "--config", f"{folder}/config", "--times", str(times)]
    words += ["--watch", watch] if watch else []
    words += [f"--{question}={text}", "--keep", f"{folder}/kept"]
    got = subprocess.run(words, capture_output=True, text=True, timeout=120)
    try:
        refused = refusal(harts, watch, text)
        if refused:
            first = "".join(got.stderr.splitlines(keepends=True)[:1])
            see((got.stdout, first, got.returncode) == ("", refused, 2), f"wanted {refused!r}")
        else:
            see_runs(got, image.load(file, 4096), harts, watch, question, text, times, folder)
        return True
    except (Wrong, IndexError, OSError) as why:
        print(f"{k}: {question} {text!r}, {harts} harts, watch {watch!r}: {why!r}\n got {(got.stdout, got.stderr, got.returncode)}")
        return False


def main(words):
    count, seed = int(words[1]) if len(words) > 1 else 300, int(words[2]) if len(words) > 2 else 1
    with tempfile.TemporaryDirectory() as folder:
        results = [agrees(words[0], folder, seed, k) for k in range(count)]
    print(f"{results.count(True)} agree, {results.count(False)} don't")
    return 1 if False in results else 0


if __name__ == "__main__":
    sys.exit(main(sys.argv[1:]))
