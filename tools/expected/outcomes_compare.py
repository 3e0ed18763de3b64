"""`smtsim outcomes` beside an enumeration of every order that leaves nothing out, on random programs.

    python3 tools/expected/outcomes_compare.py PROGRAM [COUNT] [SEED] [--without]

Small programs of two or three harts: loads, stores, LR, SC, AMO, branches, output, ends and stops; one in
three also writes its own code, and one in three calls a function from two places, or jumps to what a register holds. What is
printed has to be the same, and the number of states that of `condensed.py`.
Each order that is asked for has to end as its outcome says, on the plain machine. With --without each program is searched
four times: with all reductions, without each, and without any; the outcomes have to be the same each time, and the number of
states that of `condensed.py` without the same ones. Programs of more than 20,000 states are
left out. Prints how many agree, and ends with status 1 where one doesn't.
"""

import itertools
import os
import random
import subprocess
import sys
import tempfile

import condensed
import every_order
import image
from plain import Plain
from random_words import branch, jump

MOST = 20000
# auipc x8,0; addi x9,x8,256: where the words begin that all harts load and store.
TO_MEMORY = [0x00000417, 0x10040493]
SHARED = [image.BASE + 256, image.BASE + 260]
EXIT, PUT, ECALL, EBREAK = 0x05D00893, 0x00100893, 0x00000073, 0x00100073
REGISTERS = (5, 6, 10)


def some_instruction(r, left):
    """One or two words; `left` instructions stand behind it."""
    rd, rs, other = (r.choice(REGISTERS) for _ in range(3))
    place, kind = r.choice((0, 0, 4)), r.randrange(100)
    if kind < 22:
        return [place << 20 | 9 << 15 | 2 << 12 | rd << 7 | 0x03]
    if kind < 44:
        return [rs << 20 | 9 << 15 | 2 << 12 | place << 7 | 0x23]
    if kind < 48:
        return [r.choice((0, 1, 2)) << 20 | 9 << 15 | r.choice((0, 1, 4, 5)) << 12 | rd << 7 | 0x03]
    if kind < 51:
        return [rs << 20 | 9 << 15 | r.choice((0, 1)) << 12 | r.choice((0, 1, 2)) << 7 | 0x23]
    if kind < 59:
        return [9 << 15 | rd << 7 | 0x1000202F]
    if kind < 67:
        return [rs << 20 | 9 << 15 | rd << 7 | 0x1800202F]
    if kind < 74:
        return [r.choice((0, 1, 4, 8, 12)) << 27 | rs << 20 | 9 << 15 | rd << 7 | 0x202F]
    if kind < 84:
        return [r.choice((1, 1, 2, 0xFFF)) << 20 | rs << 15 | rd << 7 | 0x13]
    if kind < 92:
        to = 4 * r.choice((2, 2, 3, -1, -2) if r.random() < 0.4 else (2, min(3, left + 1)))
        return [branch(r.choice((0, 1, 4)), rs, r.choice((0, other)), to)]
    if kind < 96:
        return [PUT, ECALL]
    if kind < 98:
        return [EXIT, ECALL]
    return [r.choice((EBREAK, 0, rd << 7 | 0x00052003))]


def some_program(r):
    words, count = [], r.randint(2, 6)
    for k in range(count):
        words += some_instruction(r, count - k)
    return TO_MEMORY + words + [EXIT, ECALL]


def some_program_that_writes_code(r):
    """A program that puts its last word, or a part of it, in the place of others; its code is writable."""
    words, count = [], r.randint(2, 5)
    for k in range(count):
        words += some_instruction(r, count - k) if r.random() < 0.6 else [None]
    words += [] if None in words else [None]
    first = len(TO_MEMORY) + 1
    last = first + len(words) + 2
    stock = some_instruction(r, 2)[:1] if r.random() < 0.9 else [r.getrandbits(32)]
    for k, word in enumerate(words):
        if word is None:
            size, place = r.choice((2, 2, 2, 1, 0)), 4 * r.randrange(first, last)
            at = place + (r.choice((0, 2)) if size < 2 else 0)
            words[k] = (at >> 5) << 25 | 7 << 20 | 8 << 15 | size << 12 | (at & 31) << 7 | 0x23
    load = 4 * last << 20 | 8 << 15 | 2 << 12 | 7 << 7 | 0x03
    return [*TO_MEMORY, load, *words, EXIT, ECALL, *stock]


def some_program_that_jumps(r):
    """A program that calls a function from two places, of which either may be passed over; now and then it jumps to where
    another register says."""
    parts = [[word for _ in range(r.randint(0, 2)) for word in some_instruction(r, 0)] for _ in range(4)]
    back = [r.choice((0, 0, 0, 0, 4)) << 20 | 1 << 15 | r.choice((0, 0, 0, 5)) << 7 | 0x67]
    if r.random() < 0.2:
        # auipc x7,0; jalr x0,N(x7); or where one of the registers says that are loaded into.
        parts[r.randrange(3)] += r.choice(([0x00000397, r.choice((4, 8, 8, 12)) << 20 | 7 << 15 | 0x67], [6 << 15 | 0x67]))
    if r.random() < 0.5:
        # amoadd.w x5,x10,(x9); beq x5,x0,8: a hart that comes first passes over the second call.
        parts[1] += [10 << 20 | 9 << 15 | 2 << 12 | 5 << 7 | 0x2F, branch(0, 5, 0, 8)]
    first, between, last, function = parts
    last = last + [EXIT, ECALL]
    return [
        *TO_MEMORY,
        *first,
        jump(1, 4 * (2 + len(between) + len(last))),
        *between,
        jump(1, 4 * (1 + len(last))),
        *last,
        *function,
        *back,
    ]


def some_watch(r, harts):
    parts = [f"{r.choice(('x5', 't0', 'x6', 'a0'))}@{r.randrange(harts)}" for _ in range(r.randrange(3))]
    parts += [f"{r.choice(SHARED):08x}:{r.choice((4, 4, 2, 1))}" for _ in range(r.randrange(2))]
    return ",".join(parts)


def some_condition(r, harts):
    parts = []
    for _ in range(r.randint(1, 2)):
        hart, value = r.randrange(harts), r.choice((0, 0, 1, 2))
        parts.append(r.choice((f"h{hart}={value}", f"h{hart}=stopped 3", f"a0@{hart}={value}", f"{SHARED[0]:08x}:4={value:#x}")))
    return r.choice((" & ", "&")).join(parts)


def inputs_of(seed, k):
    r = random.Random(f"outcomes {seed} {k}")
    harts, kind = r.choice((2, 2, 2, 3)), r.randrange(3)
    if kind == 0:
        file = image.build(some_program_that_writes_code(r), flags=image.R | image.W | image.X)
    else:
        file = image.build(some_program_that_jumps(r) if kind == 1 else some_program(r))
    watch = some_watch(r, harts)
    return harts, file, watch, some_condition(r, harts) if r.random() < 0.5 else None


def ends_so(made, harts, order, wanted, watch, exists):
    """Whether an order ends as the line of its outcome says."""
    machine = Plain(made, harts)
    for hart in order:
        if machine.refusal(hart) is not None:
            return False
        machine.step(hart)
    columns = every_order.columns_of(watch, exists)
    found = every_order.ending(machine, columns)
    return not machine.going() and every_order.line(found, columns) == wanted


def is_told(folder, line, wanted, counted):
    """Whether these lines are printed, and this number of states, and the status is theirs."""
    done = subprocess.run(line, cwd=folder, capture_output=True, text=True, check=False)
    found = [text for text in done.stdout.splitlines() if not text.startswith("states ")]
    status = 1 if wanted[-1] == "exists: no" else 0
    return (found, done.stderr, done.returncode) == (wanted, "", status) and f"states {counted}" in done.stdout.splitlines()


def left_out():
    """Each list of reductions that a search may be without, from none on."""
    names = condensed.REDUCTIONS
    return [some for count in range(len(names) + 1) for some in itertools.combinations(names, count)]


def agrees(program, folder, seed, k, lists):
    """Whether the program says the same of program k, without each of these lists of reductions; None where it has too many
    states."""
    harts, file, watch, exists = inputs_of(seed, k)
    made = image.load(file, 4096)
    try:
        wanted = list(every_order.lines(made, harts, watch, exists, MOST))
    except every_order.TooMany:
        return None
    for name, data in (("image.elf", file), ("config", f"harts = {harts}\nram = 4096\n".encode())):
        with open(f"{folder}/{name}", "wb") as out:
            out.write(data)
    line = [program, "outcomes", "image.elf", "--config", "config"]
    line += ["--watch", watch] if watch else []
    line += ["--exists", exists] if exists is not None else []
    columns = every_order.columns_of(watch, exists)
    for without in lists:
        counted = condensed.states(made, harts, columns, without)
        if not is_told(folder, [*line, "--without", ",".join(without)] if without else line, wanted, counted):
            return False
    count = next(n for n, text in enumerate(wanted) if text.startswith("outcomes "))
    for place in random.Random(k).sample(range(count), min(count, 2)):
        subprocess.run([*line, "--outcome", str(place + 1), "--witness", "order"], cwd=folder, capture_output=True, check=False)
        with open(f"{folder}/order", encoding="ascii") as text:
            order = [int(word) for word in text.read().split()]
        os.remove(f"{folder}/order")
        if not ends_so(made, harts, order, wanted[place], watch, exists):
            return False
    return True


def main(words):
    if not words:
        print(__doc__, file=sys.stderr)
        return 2
    lists = left_out() if "--without" in words else [()]
    words = [word for word in words if word != "--without"]
    program = os.path.abspath(words[0])
    count, seed = int(words[1]) if len(words) > 1 else 500, int(words[2]) if len(words) > 2 else 1
    same, differ, k = 0, 0, 0
    with tempfile.TemporaryDirectory() as folder:
        while same + differ < count:
            answer = agrees(program, folder, seed, k, lists)
            if answer is False:
                print(f"program {k} of seed {seed} differs")
            same, differ, k = same + (answer is True), differ + (answer is False), k + 1
    print(f"{same} agree, {differ} differ; {k - same - differ} left out")
    return 1 if differ else 0


if __name__ == "__main__":
    sys.exit(main(sys.argv[1:]))
