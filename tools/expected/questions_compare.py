"""Questions of `smtsim outcomes` beside a second evaluator, on random programs.

    python3 tools/expected/questions_compare.py PROGRAM [COUNT] [SEED]

Programs and lists are those of outcomes_compare.py; the conditions are of all terms, joints, negations and parentheses,
and one in six of them is damaged. What is printed has to be the same, but for the number of states; so have the exit
status and a refusal. Each is asked again with `--first`: where an outcome settles it, the last line says so, the one
line that is named is one of those that settle it, and all lines are of the complete list, in its order. Prints how many
agree, and ends with status 1 where one doesn't.
"""

import os
import random
import subprocess
import sys
import tempfile

import conditions
import every_order
import image
from outcomes_compare import MOST, SHARED, inputs_of

QUESTIONS = ("exists", "forall", "never")


def some_term(r, harts):
    hart = r.choice((*range(harts), "*"))
    sign, value = r.choice(("=", "=", "!=", "<", ">=")), r.choice((0, 0, 1, 2, 3, 0xFFFFFFFF))
    number = f"{value:#x}" if r.random() < 0.3 else str(value)
    kind = r.randrange(10)
    if kind < 4:
        return f"h{hart}{sign}{number}"
    if kind < 6:
        return f"h{hart}{r.choice(('=', '!='))}stopped{r.choice(('', ' 3', ' 2'))}"
    if kind < 7:
        return f"out{r.choice(('=', '!='))}{r.choice(('', '00', '41', '0000'))}"
    if kind < 9:
        return f"{r.choice(('x5', 'a0'))}@{r.randrange(harts)}{sign}{number}"
    return f"{r.choice(SHARED):08x}:{r.choice((4, 2, 1))}{sign}{number}"


def some_condition(r, harts, depth=3):
    kind = r.random()
    if depth == 0 or kind < 0.3:
        return some_term(r, harts)
    inside = some_condition(r, harts, depth - 1)
    blank = r.choice(("", "", " "))
    if kind < 0.45:
        return f"!{blank}{inside}" if inside[0] in "(!" else f"!{inside}"
    if kind < 0.6:
        return f"({blank}{inside}{blank})"
    return f"{inside}{blank}{r.choice('&|')}{blank}{some_condition(r, harts, depth - 1)}"


def damaged(r, text):
    place = r.randrange(len(text))
    kind = r.randrange(3)
    if kind == 0:
        return text[:place] + text[place + 1 :]
    byte = r.choice("()!&|=<>' h0x")
    return text[:place] + byte + text[place + (kind == 1) :]


def expected(made, harts, watch, question, text):
    """What comes on standard output, on standard error, and the exit status; None where there are too many states."""
    try:
        told = list(every_order.lines(made, harts, watch, text, MOST, question=question))
    except conditions.Refused as why:
        return "", f"smtsim: condition refused at column {why.column}: expected {why.expected}\n", 2
    except every_order.NoHart as hart:
        return "", f"smtsim: no hart {hart}\n", 2
    except every_order.TooMany:
        return None
    said = told[-1].split(": ")[1].split(",")[0]
    return "".join(f"{line}\n" for line in told), "", {"yes": 0, "no": 1, "unknown": 3}[said]


def ends_of(lines):
    """The lines of outcomes."""
    return lines[: next(k for k, line in enumerate(lines) if line.startswith("outcomes "))]


def numbers_in(answer):
    return [int(word) for word in answer.partition(", outcomes ")[2].split()]


def is_first(words, wanted):
    """Whether the question, asked with `--first`, is answered as the complete list answers it."""
    got = subprocess.run([*words, "--first"], capture_output=True, text=True, timeout=120)
    whole, lines = wanted[0].splitlines(), got.stdout.splitlines()
    settling = numbers_in(whole[-1]) if whole else []
    if not settling:
        same = [line for line in lines if not line.startswith("states ")] == whole
        return same and "".join(got.stderr.splitlines(keepends=True)[:1]) == wanted[1] and got.returncode == wanted[2]
    if got.stderr or got.returncode != wanted[2] or lines[-1] != "not complete: first":
        return False
    all_ends, ends, named = ends_of(whole), ends_of(lines), numbers_in(lines[-2])
    rest = iter(all_ends)
    if len(named) != 1 or not all(line in rest for line in ends) or len(lines) != len(ends) + 4:
        return False
    is_same = lines[-2].partition(",")[0] == whole[-1].partition(",")[0]
    return is_same and lines[len(ends)] == f"outcomes {len(ends)}" and ends[named[0] - 1] in [all_ends[n - 1] for n in settling]


def agrees(program, folder, seed, k):
    harts, file, watch, _ = inputs_of(seed, k)
    r = random.Random(f"questions {seed} {k}")
    question = r.choice((*QUESTIONS, "never-stuck"))
    text = some_condition(r, harts) if question != "never-stuck" else None
    if text is not None and r.random() < 1 / 6:
        text = damaged(r, text)
    made = image.load(file, 4096)
    wanted = expected(made, harts, watch, question, text)
    if wanted is None:
        return None
    for name, contents in (("image", file), ("config", f"harts = {harts}\nram = 4096\n".encode())):
        with open(os.path.join(folder, name), "wb") as out:
            out.write(contents)
    words = [program, "outcomes", f"{folder}/image", "--config", f"{folder}/config"]
    words += ["--watch", watch] if watch else []
    words += [f"--{question}={text}"] if text is not None else ["--never-stuck"]
    got = subprocess.run(words, capture_output=True, text=True, timeout=120)
    printed = "".join(f"{line}\n" for line in got.stdout.splitlines() if not line.startswith("states "))
    first = got.stderr.splitlines(keepends=True)[:1]
    if (printed, "".join(first), got.returncode) == wanted:
        if text is None or is_first(words, wanted):
            return True
        print(f"{k}: with --first")
    print(f"{k}: {question} {text!r}, {harts} harts, watch {watch!r}\n wanted {wanted}\n got {(printed, got.stderr, got.returncode)}")
    return False


def main(words):
    count, seed = int(words[1]) if len(words) > 1 else 300, int(words[2]) if len(words) > 2 else 1
    with tempfile.TemporaryDirectory() as folder:
        results = [agrees(words[0], folder, seed, k) for k in range(count)]
    print(f"{results.count(True)} agree, {results.count(False)} don't, {results.count(None)} left out")
    return 1 if False in results else 0


if __name__ == "__main__":
    sys.exit(main(sys.argv[1:]))
