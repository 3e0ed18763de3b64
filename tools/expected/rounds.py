"""Rounds of the plain machine: harts that take turns, until none goes or all steps are made.

Written from docs/FORMATS.md, "The rounds".
"""

MOST_STEPS = 10**18
MULTIPLIER, INCREMENT = 6364136223846793005, 1442695040888963407


def numbers(seed):
    """What the generator makes of a seed, for one turn after another."""
    number = seed
    while True:
        number = (MULTIPLIER * number + INCREMENT) % 2**64
        yield number


def in_turn(machine):
    """The harts of the turns, where they come in turn; it ends where none goes."""
    last = -1
    while machine.going():
        behind = [h for h in machine.going() if h > last]
        last = (behind + machine.going())[0]
        yield last


def drawn(machine, seed):
    """The harts of the turns, where they are drawn; it ends where none goes."""
    for number in numbers(seed):
        going = machine.going()
        if not going:
            return
        yield going[(number // 2**32) * len(going) // 2**32]


def make_rounds(machine, each, steps, seed):
    """The records of all steps of the turns, made by the plain machine."""
    left = MOST_STEPS if steps is None else steps
    if left == 0:
        return
    for h in in_turn(machine) if seed is None else drawn(machine, seed):
        for _ in range(each):
            yield machine.step(h)
            left -= 1
            if left == 0:
                return
            if h not in machine.going():
                break
