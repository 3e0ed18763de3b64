"""What `smtsim schedule` prints, as docs/FORMATS.md says it: the script under which the core makes
an order's steps, one whole instruction after the other.

    python3 tools/expected/schedule.py IMAGE ORDER [CONFIG]

The script fetches once for each hart. Then, for each hart that the order names: its next
instruction is decoded, renamed, worked by the first unit of each kind that there is, and retired,
and there is one more fetch. So every hart has an instruction waiting. Where the code may be written
its word may not be there any more when its turn comes: then that turn refetches, and a second one
retires; and behind its last turn a hart fetches no more. The core model is run under the script, to see that it retires in this order.
"""

import sys

import core
import inputs
import program
from inputs import Refused
from instructions import NO_WORD, decode
from plain import Plain


def script(turns, settings):
    """The lines of the script: of each turn its hart, and whether it fetches."""
    roles = settings["actors"]
    units = [f"U{roles.index(kind)}" for kind in core.UNITS if kind in roles]
    # A word that is made once has no asterisk.
    yield "F0" if settings["harts"] == 1 else f"F0*{settings['harts']}"
    for h, fetches in turns:
        yield " ".join([f"D0.{h} R0.{h}", *units, f"T0.{h} F0" if fetches else f"T0.{h}"])


def unit_of(record):
    """The kind of unit that works a record's instruction."""
    word = record.split()[2]
    return (NO_WORD if word == "-" else decode(int(word, 16))).unit


def word_at(machine, h):
    """The word at a hart's pc."""
    pc = machine.pcs[h]
    return machine.read(pc, 4) if machine.image.has_word(pc) else None


def turns_of(made, settings, order):
    """The turns of an order: each hart once, and twice where its word isn't the one that was
    fetched behind its last turn. And what the steps of the order need a unit of."""
    machine = Plain(made, settings["harts"])
    waiting = [word_at(machine, h) for h in range(settings["harts"])]
    turns, kinds = [], []
    for place, h in enumerate(order):
        why = machine.refusal(h)
        if why is not None:
            raise Refused(f"order {place} refused {why}", 2)
        if waiting[h] != word_at(machine, h):
            turns.append((h, True))
        kinds.append(unit_of(machine.step(h)))
        turns.append((h, h in machine.going() or not made.is_writable))
        waiting[h] = word_at(machine, h)
    return turns, kinds


def room(made, order, settings):
    """The most events that the script of an order makes."""
    return (12 if made.is_writable else 6) * len(order) + settings["harts"]


def scheduled(made, settings, order):
    """The script of an order, or the refusal of its run, of a unit or of the limit. Where the code
    may be written a unit of each kind is wanted."""
    turns, kinds = turns_of(made, settings, order)
    for kind in core.UNITS if made.is_writable else kinds:
        if kind not in settings["actors"]:
            raise Refused(f"no {kind} unit", 2)
    if settings["limit"] < room(made, order, settings):
        raise Refused(f"limit below {room(made, order, settings)}", 2)
    return list(script(turns, settings))


def retired(made, settings, lines):
    """The harts of what the core model retires under a script."""
    machine = core.Core(made, settings)
    for _ in program.make_asks(machine, inputs.read_script("\n".join(lines).encode())):
        pass
    return [int(record.split()[0]) for record in machine.records]


def read_file(name):
    data = program.read_file(name)
    if data is None:
        raise Refused("file", 5)
    return data


def main(image, order, config=None):
    settings = inputs.read_config(read_file(config) if config else b"")
    made = program.loaded(image, settings)
    order = inputs.read_order(read_file(order))
    lines = scheduled(made, settings, order)
    if retired(made, settings, lines) != order:
        raise SystemExit("schedule.py: the core model retires in another order")
    print("\n".join(lines))


if __name__ == "__main__":
    try:
        main(*sys.argv[1:])
    except Refused as refused:
        print(f"smtsim: {refused.why}", file=sys.stderr)
        sys.exit(refused.status)
