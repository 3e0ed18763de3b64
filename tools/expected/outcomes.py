"""How the harts of a program can end, over all orders of whole instructions.

    python3 tools/expected/outcomes.py IMAGE [HARTS] [RAM]
        a line for each outcome: how each hart ended or stopped, the bytes put out if there are
        any, and behind `;` an order that has it

Every state that the plain machine can come to is visited once, so a program may have loops; one
that counts for ever has no end here either. Of the orders of an outcome it prints one with the
fewest changes from one hart to another.
"""

import sys
from collections import deque

import image
import inputs
from plain import Plain


def frozen(machine):
    """All that a plain machine is, as a value that can be compared."""
    return (
        tuple(machine.pcs),
        tuple(map(tuple, machine.registers)),
        frozenset(machine.memory.items()),
        tuple(machine.reserved),
        tuple(machine.statuses),
        tuple(machine.output),
    )


def thawed(made, state):
    """The plain machine that a value is."""
    pcs, registers, memory, reserved, statuses, output = state
    machine = Plain(made, len(pcs))
    machine.pcs, machine.registers = list(pcs), list(map(list, registers))
    machine.memory, machine.reserved = dict(memory), list(reserved)
    machine.statuses, machine.output = list(statuses), list(output)
    return machine


def outcome(machine):
    ends = [" ".join(map(str, status)) for status in machine.statuses]
    return ", ".join(ends + ([f"output {bytes(machine.output).hex()}"] if machine.output else []))


def outcomes(made, harts):
    """Each outcome, with an order for it. Steps of the hart that made the last one come first, so
    that an outcome is met first with the fewest changes."""
    start = frozen(Plain(made, harts)), None
    came_from, waiting, found = {}, deque([(start, None)]), {}
    while waiting:
        here, before = waiting.popleft()
        if here in came_from:
            continue
        came_from[here] = before
        state, last = here
        going = thawed(made, state).going()
        if not going:
            found.setdefault(outcome(thawed(made, state)), order_to(here, came_from))
        for h in going:
            machine = thawed(made, state)
            machine.step(h)
            there = (frozen(machine), h), here
            if h == last:
                waiting.appendleft(there)
            else:
                waiting.append(there)
    return found


def order_to(place, came_from):
    order = []
    while came_from[place] is not None:
        order.append(place[1])
        place = came_from[place]
    return order[::-1]


def main(words):
    harts = int(words[1]) if len(words) > 1 else 1
    ram = int(words[2]) if len(words) > 2 else inputs.DEFAULTS["ram"]
    with open(words[0], "rb") as file:
        made = image.load(file.read(), ram)
    for text, order in sorted(outcomes(made, harts).items()):
        print(f"{text}; {' '.join(map(str, order))}")


if __name__ == "__main__":
    main(sys.argv[1:])
