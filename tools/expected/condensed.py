"""How many states `smtsim outcomes` visits, by docs/DEFINITIONS.md ("The plain machine with numbered states").

    python3 tools/expected/condensed.py IMAGE [--config FILE] [--watch LIST] [--without LIST]
        the number of states; without the reductions that are listed, as in RX,J

A hart's step is followed by its local ones: where the code may not be written, those that touch no memory and put
nothing out, those that end or stop the hart, and SC where the hart has no reservation at all. Behind it each other hart
that has lost its reservation by the step makes its own, in turn. Then a register counts as 0 that is neither watched nor may be read
yet, and the hart has no reservation that it can't use. Both are found by the code, with JALR going where it goes in some
state that is visited; where the code may be written nothing is left out but of harts that don't go.

Without RX no SC is a local step, none makes its own behind the step of another, and a hart that goes keeps its reservation.
Without J both are found with JALR going anywhere, in one pass.

The program comes to these jumps in passes, of which it makes some; here a search with JALR going anywhere finds them. A
program with more jumps by registers than there are passes may visit more states.
"""

import sys

import every_order
import image
import inputs
from instructions import NO_WORD, decode
from outcomes import frozen, thawed
from plain import Plain

MOST_LOCAL_STEPS = 1000
BRANCHES = ("beq", "bne", "blt", "bge", "bltu", "bgeu")
REGISTERS = frozenset(range(1, 32))
REDUCTIONS = ("RX", "J")
GOING = ("going",)


def instruction(made, pc):
    return decode(made.word(pc)) if made.has_word(pc) else NO_WORD


def onward(i, pc):
    """Where an instruction may go on; None stands for anywhere."""
    if i.name in ("no word", "illegal"):
        return ()
    if i.name == "jalr":
        return None
    if i.name == "jal":
        return (pc + i.imm & 0xFFFFFFFF,)
    return (pc + 4,) if i.name not in BRANCHES else (pc + i.imm & 0xFFFFFFFF, pc + 4)


class Code:
    """Of each pc the registers that may be read yet, and whether a reservation may be used yet. The jumps are pairs of the
    pc of a JALR and of where it goes; without them it may go anywhere. Where reservations are no matter of a reduction each
    is kept, and no SC is followed."""

    def __init__(self, made, jumps=None, reduces_reservations=True):
        self.is_written, self.live, self.kept = made.is_writable, {}, {}
        self.reduces_reservations = reduces_reservations
        self.jumps, self.met = jumps, set()
        self.words = {pc: instruction(made, pc) for pc in range(made.code, made.code + len(made.code_bytes), 4)}
        while self.add_missing():
            pass

    def add_missing(self):
        before = dict(self.live), dict(self.kept)
        for pc, i in sorted(self.words.items(), reverse=True):
            behind = self.onward(i, pc)
            live = REGISTERS if behind is None else frozenset().union(*(self.live.get(to, ()) for to in behind))
            kept = behind is None or any(self.kept.get(to, False) for to in behind)
            self.live[pc] = (live - {i.rd} | {i.rs1, i.rs2}) - {0}
            self.kept[pc] = i.kind == "sc" or (i.kind != "lr" and kept)
        return (self.live, self.kept) != before

    def onward(self, i, pc):
        if i.name == "jalr" and self.jumps is not None:
            return tuple(to for start, to in self.jumps if start == pc)
        return onward(i, pc)

    def step(self, machine, hart):
        """Makes the hart's step, and notes where it jumps by a register."""
        pc = machine.pcs[hart]
        machine.step(hart)
        if self.words.get(pc, NO_WORD).name == "jalr" and machine.statuses[hart] == GOING:
            self.met.add((pc, machine.pcs[hart]))

    def is_live(self, pc, register):
        return self.is_written or register in self.live.get(pc, ())

    def is_kept(self, pc):
        return self.is_written or not self.reduces_reservations or self.kept.get(pc, False)


def is_local(code, machine, hart):
    """The hart's step ends or stops it, or neither touches memory nor puts a byte out, or is an SC of a hart without any reservation."""
    i = code.words.get(machine.pcs[hart], NO_WORD)
    if code.reduces_reservations and i.kind == "sc" and machine.reserved[hart] is None:
        return True
    tried = thawed(machine.image, frozen(machine))
    put = len(tried.output)
    tried.step(hart)
    return tried.statuses[hart] != GOING or (i.kind == "compute" and len(tried.output) == put)


def settle(code, machine, hart, kept):
    """Makes the hart's local steps, and drops what doesn't matter any more."""
    for _ in range(0 if code.is_written else MOST_LOCAL_STEPS):
        if machine.statuses[hart] != GOING or not is_local(code, machine, hart):
            break
        code.step(machine, hart)
    pc, goes = machine.pcs[hart], machine.statuses[hart] == GOING
    for register in REGISTERS - kept:
        if not (goes and code.is_live(pc, register)):
            machine.registers[hart][register] = 0
    if not (goes and code.is_kept(pc)):
        machine.reserved[hart] = None


def state_of(machine):
    """The state, as a value; a byte that is the image's own again counts as unchanged."""
    machine.memory = {at: byte for at, byte in machine.memory.items() if byte != machine.image.byte(at)}
    return frozen(machine)


def visited(made, harts, columns, code):
    """How many states are visited, where this is watched, with these registers live."""
    kept = {what[2] for _, what in columns if what[0] == "register"}
    start = Plain(made, harts)
    for hart in range(harts):
        settle(code, start, hart, kept)
    seen, waiting = {state_of(start)}, [state_of(start)]
    while waiting:
        here = waiting.pop()
        for hart in thawed(made, here).going():
            machine = thawed(made, here)
            reserved = list(machine.reserved)
            code.step(machine, hart)
            settle(code, machine, hart, kept)
            for other in range(harts) if code.reduces_reservations else ():
                if other != hart and reserved[other] is not None and machine.reserved[other] is None:
                    settle(code, machine, other, kept)
            there = state_of(machine)
            if there not in seen:
                seen.add(there)
                waiting.append(there)
    return len(seen)


def states(made, harts, columns=(), without=()):
    """How many states are visited in the last pass, where this is watched, without these reductions."""
    anywhere = Code(made, None, "RX" not in without)
    count = visited(made, harts, columns, anywhere)
    if "J" in without or anywhere.is_written or all(i.name != "jalr" for i in anywhere.words.values()):
        return count
    known = Code(made, anywhere.met, "RX" not in without)
    count = visited(made, harts, columns, known)
    assert known.met == known.jumps, "the same jumps are met in each pass that is whole"
    return count


def main(words):
    options, config = dict(zip(words[1::2], words[2::2])), b""
    if "--config" in options:
        with open(options["--config"], "rb") as file:
            config = file.read()
    settings = inputs.read_config(config)
    with open(words[0], "rb") as file:
        made = image.load(file.read(), settings["ram"])
    columns = every_order.columns_of(options.get("--watch", ""), None)
    without = options["--without"].split(",") if "--without" in options else ()
    if not set(without) <= set(REDUCTIONS):
        sys.exit(f"no reduction: {options['--without']}")
    print(states(made, settings["harts"], columns, without))
    return 0


if __name__ == "__main__":
    sys.exit(main(sys.argv[1:]))
