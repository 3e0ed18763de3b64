"""`smtsim outcomes` where there are more states than may be looked at, on the random programs of outcomes_compare.py.

    python3 tools/expected/partial_searches.py PROGRAM [COUNT] [SEED]

Each program is searched with ten budgets, from 1 to one state fewer than it has. Each line of a part has to be a line of
the complete list, which an enumeration of every order gives; none stands there twice, and they stand in its order. Behind
them stand `outcomes N`, `states N` and that it isn't complete, and nothing more; each order that is asked for has to end as
its outcome says, on the plain machine. With as many states as the program has the list is complete. Which outcomes a part has is
the program's own choice: of how many of all it tells is printed, and of how many parts none at all. Programs of more than
20,000 states are left out. Ends with status 1 where something differs.
"""

import os
import random
import subprocess
import sys
import tempfile

import every_order
import image
from outcomes_compare import MOST, ends_so, inputs_of

BUDGETS = 10


class Tally:
    def __init__(self):
        self.parts = self.empty = self.told = self.all = self.orders = 0


def run(program, folder, line, *more):
    return subprocess.run([program, *line, *more], cwd=folder, capture_output=True, text=True, check=False)


def is_subsequence(part, whole):
    rest = iter(whole)
    return all(line in rest for line in part)


def is_part(program, folder, line, inputs, wanted, budget, tally):
    """Whether what is printed for this budget is a part of what is wanted, with orders that lead there."""
    made, harts, watch = inputs
    done = run(program, folder, line, "--states", str(budget))
    if done.returncode != 3 or done.stderr:
        return False
    *listed, counted, states, last = done.stdout.splitlines()
    if counted != f"outcomes {len(listed)}" or last != f"not complete: more than {budget} states":
        return False
    if not states.startswith("states ") or int(states.split()[1]) <= budget or not is_subsequence(listed, wanted):
        return False
    tally.parts, tally.told, tally.all = tally.parts + 1, tally.told + len(listed), tally.all + len(wanted)
    tally.empty += not listed
    for place in random.Random(budget).sample(range(len(listed)), min(len(listed), 2)):
        again = run(program, folder, line, "--states", str(budget), "--outcome", str(place + 1), "--witness", "order")
        if again.stdout != done.stdout:
            return False
        with open(f"{folder}/order", encoding="ascii") as text:
            order = [int(word) for word in text.read().split()]
        os.remove(f"{folder}/order")
        if not ends_so(made, harts, order, listed[place], watch, None):
            return False
        tally.orders += 1
    return True


def are_parts(program, folder, seed, k, tally):
    """Whether the parts of program k are right; None where it has too many states, or but one."""
    harts, file, watch, _ = inputs_of(seed, k)
    made = image.load(file, 4096)
    try:
        wanted = list(every_order.lines(made, harts, watch, None, MOST))
    except every_order.TooMany:
        return None
    wanted = wanted[: next(n for n, text in enumerate(wanted) if text.startswith("outcomes "))]
    for name, data in (("image.elf", file), ("config", f"harts = {harts}\nram = 4096\n".encode())):
        with open(f"{folder}/{name}", "wb") as out:
            out.write(data)
    line = ["outcomes", "image.elf", "--config", "config", *(["--watch", watch] if watch else [])]
    whole = run(program, folder, line).stdout.splitlines()
    if whole[: len(wanted)] != wanted:
        return False
    states = next(int(text.split()[1]) for text in whole if text.startswith("states "))
    if states < 2:
        return None
    if run(program, folder, line, "--states", str(states)).stdout.splitlines() != whole:
        return False
    r = random.Random(f"parts {seed} {k}")
    budgets = {1, states - 1, *(r.randrange(1, states) for _ in range(BUDGETS - 2))}
    inputs = (made, harts, watch)
    return all(is_part(program, folder, line, inputs, wanted, budget, tally) for budget in sorted(budgets))


def main(words):
    if not words:
        print(__doc__, file=sys.stderr)
        return 2
    program = os.path.abspath(words[0])
    count, seed = int(words[1]) if len(words) > 1 else 100, int(words[2]) if len(words) > 2 else 1
    right, wrong, k, tally = 0, 0, 0, Tally()
    with tempfile.TemporaryDirectory() as folder:
        while right + wrong < count:
            answer = are_parts(program, folder, seed, k, tally)
            if answer is False:
                print(f"program {k} of seed {seed} differs")
            right, wrong, k = right + (answer is True), wrong + (answer is False), k + 1
    print(f"{right} programs agree, {wrong} differ, {k - right - wrong} left out")
    print(f"{tally.parts} parts tell {tally.told} of {tally.all} outcomes, {tally.empty} of them none; {tally.orders} orders lead there")
    return 1 if wrong else 0


if __name__ == "__main__":
    sys.exit(main(sys.argv[1:]))
