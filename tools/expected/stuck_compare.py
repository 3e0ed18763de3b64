"""Stories that `smtsim outcomes` writes, and what stands behind them, on random programs.

    python3 tools/expected/stuck_compare.py PROGRAM [COUNT] [SEED]
        `--never-stuck --story FILE`, and `--outcome N --story FILE` of a random line, of that many random programs

Programs and lists are those of outcomes_compare.py. The order comes of `--witness` beside the same words; what is told of
it is worked out by the machine of plain.py and the rows of story.py, from docs/FORMATS.md alone. Prints how many agree,
and ends with status 1 where one doesn't.
"""

import random
import subprocess
import sys
import tempfile

import image
from outcomes_compare import inputs_of
from plain import Plain
from story import deed, story

UNSEEN, SEEN, MOST = 1000, 1000, 4


def at_place(address):
    return f"{address:08x}"


def behind(made, harts, order):
    """The machine behind an order."""
    machine = Plain(made, harts)
    for h in order:
        machine.step(h)
    return machine


def turn(machine, told, g):
    """Each hart that goes makes a step; what hart g shows in it is told with its pc."""
    for h in range(len(machine.pcs)):
        if machine.statuses[h] != ("going",):
            continue
        if h == g:
            pc, shown = machine.pcs[h], deed(machine, h, at_place, [])
            if shown is not None and pc not in told and len(told) < MOST:
                told[pc] = shown[1]
        machine.step(h)


def waits(made, harts, order):
    """The lines behind a story whose order leads to a state that is stuck."""
    for g in range(harts):
        machine, told = behind(made, harts, order), {}
        for _ in range(UNSEEN):
            turn(machine, {}, None)
        for _ in range(SEEN):
            turn(machine, told, g)
        if machine.statuses[g] == ("going",):
            yield f"h{g} spins" + (": " + ", ".join(told.values()) if told else "")


def ran(program, folder, words):
    return subprocess.run([program, "outcomes", f"{folder}/image", "--config", f"{folder}/config", *words],
                          capture_output=True, text=True, timeout=120)


def order_in(path):
    with open(path, encoding="utf-8") as file:
        return [int(word) for word in file.read().split()]


def told_in(path):
    with open(path, encoding="utf-8") as file:
        return file.read().splitlines()


def is_told(program, folder, words, made, harts, closing):
    """Whether the story beside these words is that of the order beside them, with what `closing` says of it behind it."""
    ran(program, folder, [*words, "--witness", f"{folder}/order"])
    ran(program, folder, [*words, "--story", f"{folder}/story"])
    order = order_in(f"{folder}/order")
    wanted = [*story(Plain(made, harts), order, at_place, lambda pc: "", False), *closing(order)]
    got = told_in(f"{folder}/story")
    if got != wanted:
        print(f"{words}: wanted {wanted}\n got {got}")
    return got == wanted


def agrees(program, folder, seed, k):
    """Of a program: whether the stuck order's story and an outcome's are as they should be; None for what isn't there."""
    harts, file, watch, _ = inputs_of(seed, k)
    r = random.Random(f"stuck {seed} {k}")
    made = image.load(file, 4096)
    for name, contents in (("image", file), ("config", f"harts = {harts}\nram = 4096\n".encode())):
        with open(f"{folder}/{name}", "wb") as out:
            out.write(contents)
    words = ["--watch", watch] if watch else []
    found = ran(program, folder, [*words, "--never-stuck"])
    if found.stderr or found.returncode == 3:
        return [None, None]
    lines = found.stdout.splitlines()
    count = next(k for k, line in enumerate(lines) if line.startswith("outcomes "))
    stuck = None
    if found.returncode == 1:
        stuck = is_told(program, folder, [*words, "--never-stuck"], made, harts, lambda order: waits(made, harts, order))
    listed = None
    if count:
        number = r.randrange(count)
        listed = is_told(program, folder, [*words, "--outcome", str(number + 1)], made, harts, lambda order: [lines[number]])
    return [stuck, listed]


def main(words):
    count, seed = int(words[1]) if len(words) > 1 else 100, int(words[2]) if len(words) > 2 else 1
    with tempfile.TemporaryDirectory() as folder:
        results = [agrees(words[0], folder, seed, k) for k in range(count)]
    for what, told in zip(("stuck", "listed"), zip(*results)):
        print(f"{what}: {told.count(True)} agree, {told.count(False)} don't, {told.count(None)} aren't there")
    return 1 if any(False in pair for pair in results) else 0


if __name__ == "__main__":
    sys.exit(main(sys.argv[1:]))
