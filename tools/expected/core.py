"""The core: what a script's asks make of it, as docs/DEFINITIONS.md says it.

Shares no code with the program. All that a hart has on its way is one list of its instructions,
oldest first; latches, queue, ICOUNT, free registers and maps are filters over these lists.
"""

from dataclasses import dataclass, field

from instructions import ATOMIC_RESULTS, MASK, NO_WORD, SIZES
from instructions import compute, decode, predicted, signed
from looks import Completion, Retirement

UNITS = ("alu", "mul", "mem")


@dataclass
class Flying:
    """An instruction on its way: fetched, decoded, renamed, issued, completed; or squashed."""

    number: int
    hart: int
    pc: int
    word: int  # None where there is no word
    predicted: int
    stage: str = "fetched"
    register: int = None
    sources: tuple = ()
    operands: tuple = ()
    done: dict = None

    def __post_init__(self):
        self.instruction = NO_WORD if self.word is None else decode(self.word)

    def is_in(self, *stages):
        return self.stage in stages


@dataclass
class Hart:
    pc: int
    committed: list  # the physical registers of x1 to x31
    status: tuple = ("going",)
    reserved: int = None
    flying: list = field(default_factory=list)

    def at(self, *stages):
        return [f for f in self.flying if f.is_in(*stages)]

    def in_flight(self):
        return self.at("renamed", "issued", "completed")

    def icount(self):
        return len(self.at("fetched", "decoded", "renamed"))

    def map(self):
        """The physical registers of x1 to x31 for the next instruction to be renamed."""
        registers = list(self.committed)
        for f in self.in_flight():
            if f.register is not None:
                registers[f.instruction.rd - 1] = f.register
        return registers


class Core:
    def __init__(self, image, settings):
        self.image, self.roles, self.limit = image, settings["actors"], settings["limit"]
        harts, self.queue_size = settings["harts"], settings["queue"]
        self.total = 31 * harts + settings["extra"]
        self.harts = [Hart(image.entry, list(range(31 * h, 31 * h + 31))) for h in range(harts)]
        self.values = [0] * (31 * harts) + [None] * settings["extra"]
        for h in range(harts):
            self.values[31 * h + 9], self.values[31 * h + 10] = h, harts
        self.written = {}  # bytes of memory that a retirement has written
        self.jobs = {}  # actor: the instruction that it has open
        self.events, self.fetches, self.last_fetched = 0, 0, None
        self.records, self.output = [], []
        self.history = []  # the completions and retirements, for who looks again

    # ---- What is asked of the core

    def is_full(self):
        return self.events >= self.limit

    def made(self, text):
        self.events += 1
        return text

    def has(self, actor, hart=0):
        return actor < len(self.roles) and hart < len(self.harts)

    def fetch(self, actor):
        h = self.choice()
        if not self.has(actor) or h is None:
            return None
        hart = self.harts[h]
        word, pc = self.word_now(hart.pc), hart.pc
        guess = pc + 4 & MASK if word is None else predicted(word, pc)
        f = Flying(self.fetches, h, pc, word, guess)
        hart.flying.append(f)
        hart.pc = guess
        self.fetches, self.last_fetched = self.fetches + 1, h
        return self.made(f"F {actor} {h} {f.number} {pc:08x} {digits(word)} {guess:08x}")

    def choice(self):
        """The hart to fetch: the lowest ICOUNT of those that may; of equals the next in turn."""
        after = -1 if self.last_fetched is None else self.last_fetched
        every = range(len(self.harts))
        turn = [h for h in every if h > after] + [h for h in every if h <= after]
        going = [h for h in turn if self.harts[h].status == ("going",)]
        able = [h for h in going if len(self.harts[h].at("fetched")) < 8]
        return min(able, key=lambda h: self.harts[h].icount(), default=None)

    def decode(self, actor, h):
        if not self.has(actor, h):
            return None
        fetched, decoded = self.harts[h].at("fetched"), self.harts[h].at("decoded")
        if not fetched or len(decoded) >= 8:
            return None
        fetched[0].stage = "decoded"
        return self.made(f"D {actor} {fetched[0].number}")

    def queue(self):
        waiting = [f for hart in self.harts for f in hart.at("renamed")]
        return sorted(waiting, key=lambda f: f.number)

    def free(self):
        claimed = set()
        for hart in self.harts:
            claimed.update(hart.committed)
            claimed.update(f.register for f in hart.in_flight())
        return [p for p in range(self.total) if p not in claimed]

    def rename(self, actor, h):
        if not self.has(actor, h):
            return None
        hart = self.harts[h]
        decoded = hart.at("decoded")
        if not decoded or len(self.queue()) >= self.queue_size:
            return None
        f, free = decoded[0], self.free()
        kind = f.instruction.kind
        flight = hart.in_flight()
        of_kind = [x for x in flight if x.instruction.kind == kind]
        if len(flight) >= 64 or (kind in ("load", "store") and len(of_kind) >= 16):
            return None
        if f.instruction.rd and not free:
            return None
        registers = hart.map()
        named = (f.instruction.rs1, f.instruction.rs2)
        f.sources = tuple(registers[r - 1] if r else None for r in named)
        f.stage = "renamed"
        if f.instruction.rd:
            f.register = free[0]
            self.values[f.register] = None
        return self.made(f"R {actor} {f.number} {dash(f.register)}")

    def issue(self, actor):
        if not self.has(actor) or self.roles[actor] not in UNITS or actor in self.jobs:
            return None
        mine = [f for f in self.queue() if f.instruction.unit == self.roles[actor]]
        ready = [f for f in mine if self.is_ready(f)]
        if not ready:
            return None
        f = ready[0]
        f.stage = "issued"
        f.operands = tuple(0 if p is None else self.values[p] for p in f.sources)
        self.jobs[actor] = f
        return self.made(f"I {actor} {f.number}")

    def is_ready(self, f):
        return all(p is None or self.values[p] is not None for p in f.sources)

    def complete(self, actor):
        f = self.jobs.pop(actor)
        if f.stage == "squashed":
            return self.made(f"X {actor} {f.number}")
        c, i = self.computed(f), f.instruction
        done = {"value": None, "next": c.next, "addr": None, "data": None, "out": None}
        if c.next[0] == "p":
            done["out"] = c.out
            if i.kind != "compute":
                done["addr"] = c.addr
            if i.kind in ("store", "sc", "amo"):
                done["data"] = c.data
            if i.rd and i.kind == "compute":
                done["value"] = c.value
            if i.rd and i.kind == "load":
                done["value"] = self.loaded(i, c.addr, f)
        f.stage, f.done = "completed", done
        access = None if done["addr"] is None else (done["addr"], SIZES.get(i.name, 4))
        self.history.append(Completion(f.number, access))
        if f.register is not None:
            self.values[f.register] = done["value"]
        if c.next[0] == "p" and c.next[1] != f.predicted:
            self.squash_after(f, c.next[1])
        return self.made(
            f"C {actor} {f.number} {digits(done['value'])} {next_text(c.next)}"
            f" {digits(done['addr'])} {digits(done['data'])} {digits(done['out'], 2)}"
        )

    def retire(self, actor, h):
        """Retires the oldest of a hart; or fetches it again, where its word is no longer the one there."""
        if not self.has(actor, h):
            return None
        hart = self.harts[h]
        flight = hart.in_flight()
        if not flight or flight[0].stage != "completed":
            return None
        f = flight[0]
        if self.word_now(f.pc) != f.word:
            self.squash_from(f.number, hart, f.pc)
            return self.made(f"G {actor} {f.number}")
        value, write = self.effect(f, hart)
        goes_on = f.done["next"][0] == "p"
        if f.register is not None and goes_on:
            hart.committed[f.instruction.rd - 1] = f.register
            self.values[f.register] = value
        if not goes_on:
            kind, number = f.done["next"]
            hart.status = ("ended" if kind == "e" else "stopped", number)
            self.squash_after(f, None)
        elif f.instruction.kind == "load" and value != f.done["value"]:
            self.squash_after(f, f.done["next"][1])
        hart.flying.remove(f)
        gives_loaded = f.instruction.kind == "load" and f.register is not None and goes_on
        self.history.append(Retirement(f.number, write and write[:2], gives_loaded))
        if f.done["out"] is not None:
            self.output.append(f.done["out"])
        addr, data = "-", "-"
        if write is not None:
            addr, data = f"{write[0]:08x}", f"{write[2]:0{2 * write[1]}x}"
        fields = f"{digits(value)} {next_text(f.done['next'])} {addr} {data}"
        fields += f" {digits(f.done['out'], 2)}"
        self.records.append(f"{h} {f.pc:08x} {digits(f.word)} {fields}")
        return self.made(f"T {actor} {f.number} {fields}")

    def squash_after(self, f, pc):
        self.squash_from(f.number + 1, self.harts[f.hart], pc)

    def squash_from(self, number, hart, pc):
        """Squashes what a hart has on its way from a number on, and sends it to a pc, if any."""
        for x in hart.flying:
            if x.number >= number:
                x.stage = "squashed"
        hart.flying = [x for x in hart.flying if x.number < number]
        if pc is not None:
            hart.pc = pc

    # ---- Memory

    def computed(self, f):
        """What the instruction makes of its operands, the faults of its access included."""
        i = f.instruction
        c = compute(i, f.pc, *f.operands)
        if i.kind == "compute":
            return c
        n, writes = SIZES.get(i.name, 4), i.kind in ("store", "sc", "amo")
        image = self.image
        if c.addr % n:
            c.next = ("s", 6 if writes else 4)
        elif not image.in_ram(c.addr, n) or (writes and image.touches_fixed_code(c.addr, n)):
            c.next = ("s", 7 if writes else 5)
        return c

    def byte(self, address):
        found = self.written.get(address)
        return self.image.byte(address) if found is None else found

    def word_now(self, pc):
        """The word that memory has at a pc, as far as there is code; None where there is none."""
        if not self.image.has_word(pc):
            return None
        return int.from_bytes(bytes(self.byte(pc + k) for k in range(4)), "little")

    def loaded(self, i, address, first=None):
        """What a load reads of memory; `first` is the load that looks first, over the older stores
        of its hart in flight."""
        n = SIZES.get(i.name, 4)
        data = [self.byte(address + k) for k in range(n)]
        for f in self.harts[first.hart].in_flight() if first else []:
            is_older = f.stage == "completed" and f.number < first.number
            if f.instruction.kind == "store" and is_older and f.done["addr"] is not None:
                for k in range(SIZES[f.instruction.name]):
                    at = f.done["addr"] + k - address
                    if 0 <= at < n:
                        data[at] = f.done["data"] >> 8 * k & 255
        number = int.from_bytes(bytes(data), "little")
        return signed(number, 8 * n) & MASK if i.name in ("lb", "lh") else number

    def effect(self, f, hart):
        """The value and the write of a retirement, which also changes memory and reservations."""
        i, done = f.instruction, f.done
        if done["next"][0] != "p" or i.kind == "compute":
            return done["value"], None
        addr, write, value = done["addr"], None, None
        if i.kind in ("load", "lr", "amo"):
            value = self.loaded(i, addr)
        if i.kind == "lr":
            hart.reserved = addr
        if i.kind == "store":
            write = (addr, SIZES[i.name], done["data"])
        if i.kind == "amo":
            write = (addr, 4, ATOMIC_RESULTS[i.name](value, done["data"]))
        if i.kind == "sc":
            value = 0 if hart.reserved == addr else 1
            write = (addr, 4, done["data"]) if value == 0 else None
            hart.reserved = None
        if write:
            for k in range(write[1]):
                self.written[addr + k] = write[2] >> 8 * k & 255
            for other in self.harts:
                if other.reserved is not None and other.reserved == addr - addr % 4:
                    other.reserved = None
        return value if i.rd else None, write


def digits(number, n=8):
    return "-" if number is None else f"{number:0{n}x}"


def dash(number):
    return "-" if number is None else str(number)


def next_text(following):
    kind, number = following
    return f"s{number}" if kind == "s" else f"{kind}{number:08x}"
