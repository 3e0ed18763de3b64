"""What a history says: the second judge's definitions.

Written from crates/smt_model/specs (Folds, Fates, Flights, Registers, Memory, Looks, Touched,
Fetching, Jobs, Account), definition by definition, under their names. There is no state of a core: each
answer is a filter or a fold over the list of events, of which the first n count. A fold has one
clause for one event more, as there; what it said after each event is remembered.
"""

from judge_inputs import Complete, Decode, Drop, Fetch, Issue, Refetch, Rename, Retire
from judge_words import NO_WORD, op_of_word, read_value

# The fates of an instruction, by how far along it is.
UNKNOWN, IN_DECODE, IN_RENAME, RENAMED, ISSUED, COMPLETED, RETIRED, HALTED, SQUASHED = range(9)

FATES = {
    Fetch: IN_DECODE, Decode: IN_RENAME, Rename: RENAMED, Issue: ISSUED, Complete: COMPLETED,
}

UNITS = ("alu", "mul", "mem")


def fold(start):
    """A definition by what it says of no event, and by a clause for one more: that event, how many
    came before it, what was said before it, and what is asked about."""

    def definition(clause):
        def told(self, n, *about):
            said = self.said.setdefault((clause, about), [])
            if not said:
                said.append(start(self, *about) if callable(start) else start)
            while len(said) <= n:
                past = len(said) - 1
                said.append(clause(self, self.events[past], past, said[past], *about))
            return said[n]

        return told

    return definition


def remembered(definition):
    """A definition whose answer to each question is kept."""

    def told(self, *about):
        if (definition, about) not in self.said:
            self.said[definition, about] = definition(self, *about)
        return self.said[definition, about]

    return told


def is_last(next):
    """The instruction ends or stops its hart."""
    return next[0] != "p"


def first(found):
    return next(iter(found), None)


class History:
    def __init__(self, settings, image, events):
        self.settings, self.image, self.events, self.said = settings, image, events, {}
        self.harts, self.roles = settings.harts, settings.actors

    # ---- What was fetched, named, completed

    @fold(0)
    def fetches(self, e, past, before):
        return before + isinstance(e, Fetch)

    @fold(None)
    def fetching(self, e, past, before, s):
        return e if isinstance(e, Fetch) and e.seq == s else before

    @remembered
    def is_of(self, n, h, s):
        f = self.fetching(n, s)
        return f is not None and f.hart == h

    @remembered
    def op_at(self, n, s):
        f = self.fetching(n, s)
        return NO_WORD if f is None else op_of_word(f.word)

    @fold(None)
    def completion(self, e, past, before, s):
        return e.outcome if isinstance(e, Complete) and e.seq == s else before

    @fold(())
    def numbers(self, e, past, before, h):
        return (*before, e.seq) if isinstance(e, Fetch) and e.hart == h else before

    @fold(())
    def all_numbers(self, e, past, before):
        return (*before, e.seq) if isinstance(e, Fetch) else before

    # ---- Squashes and fates

    def mispredicts(self, n, s, next):
        f = self.fetching(n, s)
        return f is not None and not is_last(next) and next[1] != f.predicted

    def is_replayed(self, n, s, effect):
        o = self.completion(n, s)
        return self.op_at(n, s).kind == "loading" and o is not None and o.value != effect.value

    def squashes_at_retirement(self, n, s, effect):
        return is_last(effect.next) or self.is_replayed(n, s, effect)

    @fold(None)
    def squasher(self, e, past, before):
        """The newest event's instruction, where that squashes the younger ones of its hart; or itself too."""
        if isinstance(e, Complete):
            return e.seq if self.mispredicts(past, e.seq, e.outcome.next) else None
        if isinstance(e, Retire):
            return e.seq if self.squashes_at_retirement(past, e.seq, e.effect) else None
        return e.seq if isinstance(e, Refetch) else None

    def squashes(self, past, t):
        """The event behind these squashes instruction t."""
        s = self.squasher(past + 1)
        first_kept = isinstance(self.events[past], Retire | Complete)
        if s is None or t < s + first_kept:
            return False
        f = self.fetching(past, s)
        return f is not None and self.is_of(past, f.hart, t)

    def fate_by(self, e, s):
        """What an event says of an instruction's fate; a drop and a refetch say nothing."""
        if e.seq != s or isinstance(e, Drop | Refetch):
            return None
        if isinstance(e, Retire):
            return HALTED if is_last(e.effect.next) else RETIRED
        return FATES[type(e)]

    @fold(UNKNOWN)
    def fate(self, e, past, before, s):
        new = self.fate_by(e, s)
        if new is not None:
            return before if before == SQUASHED else new
        return SQUASHED if IN_DECODE <= before <= COMPLETED and self.squashes(past, s) else before

    # ---- The places of the pipeline

    def in_decode(self, n, h):
        return [s for s in self.numbers(n, h) if self.fate(n, s) == IN_DECODE]

    def in_rename(self, n, h):
        return [s for s in self.numbers(n, h) if self.fate(n, s) == IN_RENAME]

    def flight(self, n, h):
        return [s for s in self.numbers(n, h) if RENAMED <= self.fate(n, s) <= COMPLETED]

    def queue(self, n):
        return [s for s in self.all_numbers(n) if self.fate(n, s) == RENAMED]

    def icount(self, n, h):
        return sum(IN_DECODE <= self.fate(n, s) <= RENAMED for s in self.numbers(n, h))

    # ---- Renaming

    @fold(None)
    def phys(self, e, past, before, s):
        return e.phys if isinstance(e, Rename) and e.seq == s else before

    @fold(())
    def namings(self, e, past, before):
        """The instructions that were given a register, the newest first."""
        return (e.seq, *before) if isinstance(e, Rename) and e.phys is not None else before

    def writes(self, n, h, r, s):
        return self.is_of(n, h, s) and self.op_at(n, s).rd == r

    @remembered
    def retired_writers(self, n):
        """Those that have retired without ending their hart, the newest naming first."""
        return [s for s in self.namings(n) if self.fate(n, s) == RETIRED]

    def committer(self, n, h, r):
        """The youngest writer of a hart's register that has so retired."""
        return first(s for s in self.retired_writers(n) if self.writes(n, h, r, s))

    def source(self, n, h, r, s):
        """The youngest writer older than s that is in flight or has so retired."""
        return first(
            x for x in self.namings(n)
            if x < s and self.writes(n, h, r, x) and RENAMED <= self.fate(n, x) <= RETIRED
        )

    def register_by(self, n, h, r, writer):
        return 31 * h + r - 1 if writer is None else self.phys(n, writer) or 0

    def committed(self, n, h, r):
        return self.register_by(n, h, r, self.committer(n, h, r))

    def claims(self, n, p):
        """How many instructions in flight, and committed registers, have a physical register."""
        flights = sum(
            RENAMED <= self.fate(n, s) <= COMPLETED and self.phys(n, s) == p
            for s in self.all_numbers(n)
        )
        return flights + sum(
            self.committed(n, h, r) == p for h in range(self.harts) for r in range(1, 32)
        )

    # ---- Numbers in registers

    @fold(None)
    def result_of(self, e, past, before, s):
        if isinstance(e, Complete) and e.seq == s:
            return e.outcome.value
        return e.effect.value if isinstance(e, Retire) and e.seq == s else before

    def first_value(self, p):
        if p >= 31 * self.harts:
            return None
        return {10: p // 31, 11: self.harts}.get(p % 31 + 1, 0)

    def value(self, n, p):
        """What a physical register holds: what the instruction that was given it last has made."""
        holder = first(s for s in self.namings(n) if self.phys(n, s) == p)
        return self.first_value(p) if holder is None else self.result_of(n, holder)

    def reads(self, n, s, place):
        """What the first or the second source of s holds, 0 for x0 and for none."""
        f = self.fetching(n, s)
        if f is None:
            return None
        op = op_of_word(f.word)
        r = op.first if place == "first" else op.second
        if r == 0:
            return 0
        return self.value(n, self.register_by(n, f.hart, r, self.source(n, f.hart, r, s)))

    def is_ready(self, n, s):
        return self.reads(n, s, "first") is not None and self.reads(n, s, "second") is not None

    @fold(None)
    def operand(self, e, past, before, s, place):
        """What a source held just before its instruction issued."""
        return self.reads(past, s, place) if isinstance(e, Issue) and e.seq == s else before

    # ---- Memory, reservations, output, statuses: what the retirements have made of them

    @fold(lambda self, address: self.image.byte(address))
    def byte_at(self, e, past, before, address):
        if not isinstance(e, Retire) or e.effect.write is None:
            return before
        return written_byte(e.effect.write, address, before)

    def word_now(self, n, pc):
        return self.image.word_now(lambda address: self.byte_at(n, address), pc)

    @fold(None)
    def reserved(self, e, past, before, h):
        if not isinstance(e, Retire) or is_last(e.effect.next):
            return before
        if self.is_of(past, h, e.seq):
            kind, o = self.op_at(past, e.seq).kind, self.completion(past, e.seq)
            address = 0 if o is None or o.address is None else o.address
            before = {"reserving": address, "conditional": None}.get(kind, before)
        write = e.effect.write
        return None if write and before is not None and before // 4 == write[0] // 4 else before

    @fold(())
    def output(self, e, past, before):
        out = e.effect.out if isinstance(e, Retire) else None
        return before if out is None else (*before, out)

    @fold(None)
    def status(self, e, past, before, h):
        """How a hart stands: None where it is going, else the next that ended or stopped it."""
        if isinstance(e, Retire) and is_last(e.effect.next) and self.is_of(past, h, e.seq):
            return e.effect.next
        return before

    # ---- What a load sees as it completes

    def stored_by(self, n, x):
        o = self.completion(n, x)
        if o is None or o.address is None:
            return None
        return o.address, self.op_at(n, x).size, o.datum or 0

    def seen_byte(self, n, h, s, address):
        seen = self.byte_at(n, address)
        for x in self.numbers(n, h):
            if x < s and self.op_at(n, x).kind == "storing" and self.fate(n, x) == COMPLETED:
                write = self.stored_by(n, x)
                seen = seen if write is None else written_byte(write, address, seen)
        return seen

    # ---- Who looks again

    @fold(False)
    def is_touched(self, e, past, before, s):
        """A write since the completion of s shares a byte with its access."""
        o = self.completion(past, s)
        if not isinstance(e, Retire) or e.effect.write is None or o is None or o.address is None:
            return before
        start, size, _ = e.effect.write
        return before or shares_byte(start, size, o.address, self.op_at(past, s).size)

    def gives_loaded(self, e, past):
        """It is the retirement of a load that gives a register its number."""
        if not isinstance(e, Retire) or is_last(e.effect.next):
            return False
        op = self.op_at(past, e.seq)
        return op.kind == "loading" and op.rd != 0

    @fold(0)
    def loads(self, e, past, before):
        return before + self.gives_loaded(e, past)

    @fold(0)
    def looks(self, e, past, before):
        return before + (self.gives_loaded(e, past) and self.is_touched(past, e.seq))

    # ---- Fetching, and open jobs

    @fold(lambda self, h: self.image.entry)
    def fetch_pc(self, e, past, before, h):
        if isinstance(e, Fetch):
            return e.predicted if e.hart == h else before
        s = self.squasher(past + 1)
        if s is None or not self.is_of(past, h, s):
            return before
        if isinstance(e, Refetch):
            return self.fetching(past, s).pc
        sent = (e.outcome if isinstance(e, Complete) else e.effect).next
        return before if is_last(sent) else sent[1]

    @fold(None)
    def last_fetched(self, e, past, before):
        return e.hart if isinstance(e, Fetch) else before

    def choice(self, n):
        """The hart to fetch: of those that may, the first in turn with the lowest ICOUNT."""
        last = self.last_fetched(n)
        turn = sorted(range(self.harts), key=lambda h: last is not None and h <= last)
        may = [h for h in turn if self.status(n, h) is None and len(self.in_decode(n, h)) < 8]
        return min(may, key=lambda h: self.icount(n, h), default=None)

    @fold(None)
    def job(self, e, past, before, k):
        if e.actor != k or not isinstance(e, (Issue, Complete, Drop)):
            return before
        return e.seq if isinstance(e, Issue) else None

    def unit_of_actor(self, k):
        return self.roles[k] if k < len(self.roles) and self.roles[k] in UNITS else None

    def is_for(self, n, actor, s):
        return self.unit_of_actor(actor) == self.op_at(n, s).unit

    # ---- What a legal history comes to

    def records(self):
        """The fetch and the effect of each retirement, in order."""
        n = len(self.events)
        return [(self.fetching(n, e.seq), e.effect) for e in self.events if isinstance(e, Retire)]

    def open_job_count(self):
        return sum(self.job(len(self.events), k) is not None for k in range(len(self.roles)))


def shares_byte(a, n, b, m):
    """The n bytes from a and the m bytes from b share one."""
    return n > 0 and m > 0 and a < b + m and b < a + n


def written_byte(write, address, before):
    """The byte at an address after a write, where `before` was there."""
    start, size, datum = write
    return datum >> 8 * (address - start) & 255 if start <= address < start + size else before


def read(op, address, byte):
    """The number that an instruction's access gives, where memory has these bytes."""
    return read_value(op, sum(byte(address + i) << 8 * i for i in range(op.size)))
