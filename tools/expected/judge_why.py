"""Why a trace is refused, as `check --why` says it: read off the second judge's definitions.

    judge_why.py IMAGE TRACE [--config FILE]

It prints the lines that say why, and the refusal on standard error; nothing on standard output where the trace is
accepted. Written from docs/FORMATS.md ("The refusal, explained"); what stands where, who has written and what is wanted
comes of judge_history.py and judge_rules.py alone, by filters and folds over the events before the refused one.
"""

import re
import sys

import judge
from judge_history import COMPLETED, IN_DECODE, IN_RENAME, ISSUED, RENAMED, RETIRED, SQUASHED, HALTED
from judge_history import UNITS, is_last
from judge_inputs import Complete, Decode, Drop, Fetch, Issue, Refetch, Refused, Rename, Retire
from judge_rules import Rules
from judge_why_lines import why_line

LATCH, FLIGHT, ACCESSES = 8, 64, 16

ACTOR = "the actor is one of the core's"
RULES = {
    Fetch: (
        ACTOR, "the hart is the one that ICOUNT wants", "the number is the next one",
        "the pc is where this hart goes on", "the word is what memory has at this pc now",
    ),
    Decode: (
        ACTOR, "the instruction is fetched and not yet decoded", "it is the oldest such instruction of its hart",
        "its hart has fewer than 8 decoded instructions",
    ),
    Rename: (
        ACTOR, "the instruction is decoded and not yet renamed", "it is the oldest such instruction of its hart",
        "the issue queue has room", "its hart has fewer than 64 instructions in flight",
        "a load's hart has fewer than 16 loads in flight", "a store's hart has fewer than 16 stores in flight",
        "a register stands there exactly where the instruction writes one", "the register is one of the core's, and free",
    ),
    Issue: (
        ACTOR, "the actor is a unit that has no job", "the instruction is renamed and not yet issued",
        "it is of the unit's kind", "both of its operands have their values",
        "no older instruction of this kind is ready",
    ),
    Complete: (
        ACTOR, "the instruction is the actor's job", "it isn't squashed",
        "a completion has what the instruction computes of its operands",
    ),
    Drop: (ACTOR, "the instruction is the actor's job", "it is squashed"),
    Retire: (
        ACTOR, "the instruction is completed and not yet retired", "it is the oldest of its hart in flight",
        "a retirement has the effect that memory gives now", "the word at its pc is still the one that was fetched",
    ),
    Refetch: (
        ACTOR, "the instruction is completed and not yet retired", "it is the oldest of its hart in flight",
        "the word at its pc isn't the one any more that was fetched",
    ),
}

word = judge.spelled


def event_line(e):
    """The line of an event."""
    if isinstance(e, Fetch):
        return f"F {e.actor} {e.hart} {e.seq} {e.pc:08x} {word(e.word, 8)} {e.predicted:08x}"
    if isinstance(e, Rename):
        return f"R {e.actor} {e.seq} {'-' if e.phys is None else e.phys}"
    if isinstance(e, Complete):
        return f"C {e.actor} {e.seq} " + " ".join(text for _, text in outcome_fields(e.outcome))
    if isinstance(e, Retire):
        return f"T {e.actor} {e.seq} " + " ".join(text for _, text in effect_fields(e.effect))
    letter = {Decode: "D", Issue: "I", Drop: "X", Refetch: "G"}[type(e)]
    return f"{letter} {e.actor} {e.seq}"


def outcome_fields(o):
    return (
        ("value", word(o.value, 8)), ("next", judge.next_text(o.next)), ("address", word(o.address, 8)),
        ("data", word(o.datum, 8)), ("out", word(o.out, 2)),
    )


def effect_fields(effect):
    address, size, datum = effect.write or (None, 0, None)
    return (
        ("value", word(effect.value, 8)), ("next", judge.next_text(effect.next)), ("address", word(address, 8)),
        ("data", word(datum, 2 * size)), ("out", word(effect.out, 2)),
    )


class Why(Rules):
    """The events before the refused one are the first n; the refused one is behind them."""

    # ---- Places of events

    def place(self, n, kind, s):
        """The place of the event of a kind that instruction s has."""
        return next(k for k in range(n) if isinstance(self.events[k], kind) and self.events[k].seq == s)

    def squashed_at(self, n, s):
        """The place of the event that squashed s."""
        return next(k for k in range(n) if self.fate(k, s) != SQUASHED and self.fate(k + 1, s) == SQUASHED)

    def standing(self, n, s):
        fate = self.fate(n, s)
        if fate == 0:
            return f"number {s} isn't fetched"
        if fate == SQUASHED:
            k = self.squashed_at(n, s)
            return f"number {s} was squashed by number {self.events[k].seq} (event {k})"
        kind, what = {
            IN_DECODE: (Fetch, "is fetched"), IN_RENAME: (Decode, "is decoded"), RENAMED: (Rename, "is renamed"),
            ISSUED: (Issue, "is issued"), COMPLETED: (Complete, "is completed"),
            RETIRED: (Retire, "has retired"), HALTED: (Retire, "has retired"),
        }[fate]
        k = self.place(n, kind, s)
        to = f" to actor {self.events[k].actor}" if fate == ISSUED else ""
        return f"number {s} {what}{to} (event {k})"

    def doer(self, n, k):
        s = self.events[k].seq
        return f"number {s} of hart {self.fetching(n, s).hart} (event {k})"

    # ---- Who wrote

    def writer(self, n, address, size):
        """Who wrote one of these bytes last."""
        def hits(e):
            write = isinstance(e, Retire) and e.effect.write
            return write and any(write[0] <= address + i < write[0] + write[1] for i in range(size))
        found = [k for k in range(n) if hits(self.events[k])]
        return f"written by {self.doer(n, found[-1])}" if found else "from the image"

    def source_of(self, n, s, r):
        f = self.fetching(n, s)
        return self.source(n, f.hart, r, s)

    def given(self, n, s):
        """The number that s has given its register, and the place of the event; or None."""
        for k in range(n):
            e = self.events[k]
            value = e.outcome.value if isinstance(e, Complete) else e.effect.value if isinstance(e, Retire) else None
            if e.seq == s and value is not None:
                return value, k
        return None

    def registers_read(self, n, s):
        op = self.op_at(n, s)
        return [r for r in dict.fromkeys((op.first, op.second)) if r]

    # ---- The facts

    def first_of(self, s, oldest, what):
        return [f"number: the trace says {s}, {what} is {oldest}"]

    def full(self, name, found, room):
        return [f"{name}: {len(found)} of {room}:" + "".join(f" {s}" for s in found)]

    def choice_facts(self, n, e, wanted):
        who = "no hart may be fetched" if wanted is None else f"ICOUNT wants {wanted.hart}"
        yield f"hart: the trace says {e.hart}, {who}"
        for h in range(self.harts):
            status = self.status(n, h)
            if status is not None:
                yield f"hart {h}: {'ended' if status[0] == 'e' else 'stopped'}"
            else:
                full = ", decode latch full" if len(self.in_decode(n, h)) >= LATCH else ""
                yield f"hart {h}: {self.icount(n, h)} in decode, rename and queue{full}"
        fetched = [k for k in range(n) if isinstance(self.events[k], Fetch)]
        last = f"hart {self.events[fetched[-1]].hart} (event {fetched[-1]})" if fetched else "none"
        yield f"fetched last: {last}"

    def sender(self, n, h):
        """What has said where hart h goes on: the last event with which its pc could be another."""
        said = "the entry of the image"
        for k in range(n):
            e = self.events[k]
            if not self.is_of(n, h, e.seq):
                continue
            if isinstance(e, Fetch):
                said = f"predicted by number {e.seq} (event {k})"
            elif self.squasher(k + 1) is not None:
                ends = isinstance(e, Retire) and is_last(e.effect.next)
                said = said if ends else f"sent there by number {e.seq} (event {k})"
        return said

    def fetch_facts(self, n, e, rule, wanted):
        if rule == 2:
            return list(self.choice_facts(n, e, wanted))
        if rule == 3:
            return [f"number: the trace says {e.seq}, the next is {self.fetches(n)}"]
        if rule == 4:
            on = f"hart {e.hart} goes on at {wanted.pc:08x}, {self.sender(n, e.hart)}"
            return [f"pc: the trace says {e.pc:08x}, {on}"]
        now = self.word_now(n, e.pc)
        has = "there is no code" if now is None else f"memory has {now:08x}, {self.writer(n, e.pc, 4)}"
        return [f"word: the trace says {word(e.word, 8)}, {has}"]

    def decode_facts(self, n, e, rule, wanted):
        if rule == 2:
            return [self.standing(n, e.seq)]
        h = self.fetching(n, e.seq).hart
        if rule == 3:
            return self.first_of(e.seq, self.in_decode(n, h)[0], f"the oldest fetched of hart {h}")
        return self.full(f"rename latch of hart {h}", self.in_rename(n, h), LATCH)

    def rename_facts(self, n, e, rule, wanted):
        if rule == 2:
            return [self.standing(n, e.seq)]
        h, op = self.fetching(n, e.seq).hart, self.op_at(n, e.seq)
        flight = self.flight(n, h)
        if rule == 3:
            return self.first_of(e.seq, self.in_rename(n, h)[0], f"the oldest decoded of hart {h}")
        if rule == 4:
            return self.full("queue", self.queue(n), self.settings.queue)
        if rule == 5:
            return self.full(f"in flight of hart {h}", flight, FLIGHT)
        if rule in (6, 7):
            kind, name = (("loading", "loads"), ("storing", "stores"))[rule - 6]
            found = [s for s in flight if self.op_at(n, s).kind == kind]
            return self.full(f"{name} in flight of hart {h}", found, ACCESSES)
        if rule == 8:
            writes = f"x{op.rd}" if op.rd else "none"
            return [f"register: the trace says {'-' if e.phys is None else e.phys}, number {e.seq} writes {writes}"]
        return [f"register: the trace says {e.phys}, {self.owner(n, e.phys)}"]

    def owner(self, n, p):
        registers = 31 * self.harts + self.settings.extra
        if p >= registers:
            return f"the core has 0 to {registers - 1}"
        for s in self.all_numbers(n):
            if RENAMED <= self.fate(n, s) <= COMPLETED and self.phys(n, s) == p:
                k = self.place(n, Rename, s)
                return f"number {s} of hart {self.fetching(n, s).hart} has it for x{self.op_at(n, s).rd} (event {k})"
        h, r = next((h, r) for h in range(self.harts) for r in range(1, 32) if self.committed(n, h, r) == p)
        s = self.committer(n, h, r)
        if s is None:
            return f"hart {h} has it for x{r}, from the start"
        return f"hart {h} has it for x{r}, of number {s} (event {self.place(n, Retire, s)})"

    def job_fact(self, n, e):
        s = self.job(n, e.actor)
        if s is None:
            has = "no job"
        else:
            k = [k for k in range(n) if isinstance(self.events[k], Issue) and self.events[k].actor == e.actor][-1]
            has = f"the job of number {s} (event {k})"
        return f"actor: the trace says {e.actor}, which has {has}"

    def issue_facts(self, n, e, rule, wanted):
        if rule == 2:
            role = self.roles[e.actor]
            is_unit = role in UNITS
            return [self.job_fact(n, e) if is_unit else f"actor: the trace says {e.actor}, whose role is {role}"]
        if rule == 3:
            return [self.standing(n, e.seq)]
        unit = self.op_at(n, e.seq).unit
        if rule == 4:
            return [f"unit: number {e.seq} is for {unit}, actor {e.actor} is {self.roles[e.actor]}"]
        if rule == 5:
            return list(self.waits(n, e.seq))
        return self.first_of(e.seq, wanted.seq, f"the oldest ready one for {unit}")

    def waits(self, n, s):
        names = {RENAMED: (Rename, "renamed"), ISSUED: (Issue, "issued"), COMPLETED: (Complete, "completed")}
        for r in self.registers_read(n, s):
            x = self.source_of(n, s, r)
            if x is not None and self.result_of(n, x) is None:
                kind, name = names[self.fate(n, x)]
                yield f"number {s} waits for x{r} of number {x}, which is {name} (event {self.place(n, kind, x)})"

    def handing_facts(self, n, e, rule, wanted):
        if rule == 2:
            return [self.job_fact(n, e), self.standing(n, e.seq)]
        if rule == 3:
            return [self.standing(n, e.seq)]
        op, o, lines = self.op_at(n, e.seq), wanted.outcome, []
        for (name, says), (_, has) in zip(outcome_fields(e.outcome), outcome_fields(o)):
            if says != has:
                who = f"number {e.seq} has {has}"
                if name == "value" and op.kind == "loading" and not is_last(o.next):
                    who = self.look(n, e.seq, op, o.address, has)
                lines.append(f"{name}: the trace says {says}, {who}")
        return lines + list(self.operands(n, e.seq))

    def look(self, n, s, op, address, has):
        """Whose number the first look of a load has."""
        def shares(x):
            write = self.stored_by(n, x)
            return write and any(write[0] <= address + i < write[0] + write[1] for i in range(op.size))
        h = self.fetching(n, s).hart
        seen = [
            x for x in self.numbers(n, h)
            if x < s and self.op_at(n, x).kind == "storing" and self.fate(n, x) == COMPLETED and shares(x)
        ]
        if seen:
            return f"the first look has {has}, of the store {self.doer(n, self.place(n, Complete, seen[-1]))}"
        return f"memory has {has}, {self.writer(n, address, op.size)}"

    def operands(self, n, s):
        op = self.op_at(n, s)
        for r in self.registers_read(n, s):
            value = self.operand(n, s, "first" if op.first == r else "second")
            x = self.source_of(n, s, r)
            whose = "from the start" if x is None else f"of number {x} (event {self.given(n, x)[1]})"
            yield f"x{r} is {value:08x}, {whose}"

    def leaving_facts(self, n, e, rule, wanted):
        if rule == 2:
            return [self.standing(n, e.seq)]
        f = self.fetching(n, e.seq)
        if rule == 3:
            return self.first_of(e.seq, self.flight(n, f.hart)[0], f"the oldest in flight of hart {f.hart}")
        fetched = f"word: number {e.seq} was fetched as {word(f.word, 8)} (event {self.place(n, Fetch, e.seq)})"
        if isinstance(e, Refetch):
            return [f"{fetched}, memory has it still"]
        if isinstance(wanted, Refetch):
            now = word(self.word_now(n, f.pc), 8)
            return [f"{fetched}, memory has {now}, {self.writer(n, f.pc, 4)}"]
        return self.effect_facts(n, e, wanted.effect)

    def effect_facts(self, n, e, effect):
        op, lines = self.op_at(n, e.seq), []
        for (name, says), (_, has) in zip(effect_fields(e.effect), effect_fields(effect)):
            if says == has:
                continue
            who = f"number {e.seq} has {has}"
            if name == "next" or is_last(effect.next) or op.kind in ("computing", "storing"):
                who += f", completed so (event {self.place(n, Complete, e.seq)})"
            elif name == "value" and op.kind in ("loading", "reserving", "atomic"):
                address = self.completion(n, e.seq).address
                who = f"memory has {has}, {self.writer(n, address, op.size)}"
            lines.append(f"{name}: the trace says {says}, {who}")
        if op.kind == "conditional" and not is_last(effect.next):
            lines.append(self.reservation(n, self.fetching(n, e.seq).hart))
        return lines

    def reservation(self, n, h):
        """The last word that hart h has reserved, by which LR, and until which event."""
        made = [
            k for k in range(n) if isinstance(self.events[k], Retire) and self.is_of(n, h, self.events[k].seq)
            and self.op_at(n, self.events[k].seq).kind == "reserving" and not is_last(self.events[k].effect.next)
        ]
        if not made:
            return f"hart {h} has never reserved a word"
        address = self.reserved(made[-1] + 1, h)
        gone = [k for k in range(made[-1] + 1, n) if self.reserved(k + 1, h) is None]
        if not gone:
            return f"hart {h} has reserved {address:08x}, by {self.doer(n, made[-1])}"
        return f"hart {h} had reserved {address:08x}, until {self.doer(n, gone[0])}"

    # ---- What is wanted

    def ask(self, n, e):
        """The actor and the hart of which a step of this kind is asked."""
        f = self.fetching(n, e.seq)
        h, actor = (0 if f is None else f.hart), e.actor
        if actor >= len(self.roles):
            holders = [k for k in range(len(self.roles)) if self.job(n, k) == e.seq]
            if isinstance(e, Complete | Drop) and holders:
                actor = holders[0]
            else:
                can = (k for k in range(len(self.roles)) if self.reason(n, e, k, h) is None)
                actor = next(can, 0)
        if f is None:
            h = next((h for h in range(self.harts) if self.reason(n, e, actor, h) is None), 0)
        return actor, h

    def reason(self, n, e, actor, h):
        """Why a step of this kind can't be made by an actor, of hart h; docs/FORMATS.md, "The asks, explained"."""
        if isinstance(e, Fetch):
            return self.no_fetch(n)
        if isinstance(e, Issue):
            return self.no_issue(n, actor)
        if isinstance(e, Complete | Drop):
            if self.unit_of_actor(actor) is None:
                return f"actor {actor} is no unit"
            return f"actor {actor} has no job" if self.job(n, actor) is None else None
        status = self.status(n, h)
        if status is not None:
            return f"hart {h} has {'ended' if status[0] == 'e' else 'stopped'}"
        if isinstance(e, Decode):
            if not self.in_decode(n, h):
                return f"nothing fetched of hart {h}"
            return "rename latch full" if len(self.in_rename(n, h)) >= LATCH else None
        if isinstance(e, Rename):
            return self.no_rename(n, h)
        flight = self.flight(n, h)
        if not flight:
            return f"nothing in flight of hart {h}"
        fate = self.fate(n, flight[0])
        name = {RENAMED: "renamed", ISSUED: "issued"}.get(fate)
        return None if fate == COMPLETED else f"oldest, number {flight[0]}, is {name} and not completed"

    def no_fetch(self, n):
        going = [h for h in range(self.harts) if self.status(n, h) is None]
        if not going:
            return "no hart is going"
        return "decode latch full of each hart that is going" if self.choice(n) is None else None

    def no_rename(self, n, h):
        decoded = self.in_rename(n, h)
        if not decoded:
            return f"nothing decoded of hart {h}"
        op, flight = self.op_at(n, decoded[0]), self.flight(n, h)
        if len(self.queue(n)) >= self.settings.queue:
            return "queue full"
        if len(flight) >= FLIGHT:
            return "64 instructions in flight"
        for kind, name in (("loading", "loads"), ("storing", "stores")):
            if op.kind == kind and sum(self.op_at(n, s).kind == kind for s in flight) >= ACCESSES:
                return f"16 {name} in flight"
        return "no free register" if op.rd and self.least_free(n) is None else None

    def least_free(self, n):
        registers = 31 * self.harts + self.settings.extra
        return next((p for p in range(registers) if self.claims(n, p) == 0), None)

    def no_issue(self, n, actor):
        unit, s = self.unit_of_actor(actor), self.job(n, actor)
        if unit is None:
            return f"actor {actor} is no unit"
        if s is not None:
            return f"actor {actor} has a job: number {s}"
        queued = [t for t in self.queue(n) if self.is_for(n, actor, t)]
        if not queued:
            return f"nothing in the queue for {unit}"
        if any(self.is_ready(n, t) for t in queued):
            return None
        s = queued[0]
        waits = next(self.waits(n, s)).removeprefix(f"number {s} ").replace(", which is ", " (").partition(" (event")[0]
        return f"nothing ready for {unit}: the oldest, number {s}, {waits})"

    def wanted(self, n, e):
        """The event that a step of this kind would be now, or the reason why there is none."""
        actor, h = self.ask(n, e)
        reason = self.reason(n, e, actor, h)
        if reason is not None:
            return None, reason
        return self.step(n, e, actor, h), None

    def step(self, n, e, actor, h):
        if isinstance(e, Fetch):
            hart = self.choice(n)
            pc = self.fetch_pc(n, hart)
            now = self.word_now(n, pc)
            predicted = (pc + 4) % 2**32 if now is None else e.predicted
            return Fetch(actor, hart, self.fetches(n), pc, now, predicted)
        if isinstance(e, Decode):
            return Decode(actor, self.in_decode(n, h)[0])
        if isinstance(e, Rename):
            s = self.in_rename(n, h)[0]
            return Rename(actor, s, self.least_free(n) if self.op_at(n, s).rd else None)
        if isinstance(e, Issue):
            return Issue(actor, next(t for t in self.queue(n) if self.is_for(n, actor, t) and self.is_ready(n, t)))
        if isinstance(e, Complete | Drop):
            s = self.job(n, actor)
            squashed = self.fate(n, s) == SQUASHED
            return Drop(actor, s) if squashed else Complete(actor, s, self.outcome_now(n, self.fetching(n, s)))
        s = self.flight(n, h)[0]
        f = self.fetching(n, s)
        return Retire(actor, s, self.effect_now(n, f)) if self.is_fresh(n, f) else Refetch(actor, s)

    # ---- The text

    def facts(self, n, e, rule, wanted):
        if rule == 1:
            return [f"actor: the trace says {e.actor}, the core has 0 to {len(self.roles) - 1}"]
        told = {
            Fetch: self.fetch_facts, Decode: self.decode_facts, Rename: self.rename_facts, Issue: self.issue_facts,
            Complete: self.handing_facts, Drop: self.handing_facts, Retire: self.leaving_facts,
            Refetch: self.leaving_facts,
        }
        return told[type(e)](n, e, rule, wanted)

    def lines(self, n, rule, heads):
        """The lines on the event behind the first n, which breaks this rule, in a trace with so many lines before."""
        e = self.events[n]
        wanted, reason = self.wanted(n, e)
        yield f"event {n}, line {n + heads + 1}: {event_line(e)}"
        yield f"rule {rule}: {RULES[type(e)][rule - 1]}"
        yield from self.facts(n, e, rule, wanted)
        yield "wanted: " + (event_line(wanted) if reason is None else f"none, {reason}")


def why(image, settings, events, heads):
    """The lines that say why the events are no history, each ended; empty where they are one."""
    history = Why(settings, image, events)
    broken = history.first_refused()
    return "" if broken is None else "".join(line + "\n" for line in history.lines(*broken, heads))


def why_of_text(image, given, text):
    """The bytes that say why a trace's text is refused, and the refusal; of one that is accepted neither."""
    try:
        told = judge.trace_of(text)
    except Refused as refused:
        place, rule = re.fullmatch(r"trace line (\d+) refused (\d)", refused.said).groups()
        return why_line(text, int(place), int(rule)), refused
    settings = told.settings(given)
    try:
        judge.judged(image, settings, told.events)
    except Refused as refused:
        heads = 1 if told.core is None else 2
        return (why(image, settings, told.events, heads).encode() if refused.status == 4 else b""), refused
    return b"", None


def why_of(image, trace, config):
    """The same of the files of these names."""
    given = judge.Settings() if config is None else judge.settings_of(judge.contents(config))
    found = judge.image_of(judge.contents(image), given.ram)
    return why_of_text(found, given, judge.contents(trace))


def main(words):
    try:
        (image, trace), config, _ = judge.line_of(words, ())
        told, refused = why_of(image, trace, config)
    except Refused as early:
        told, refused = b"", early
    sys.stdout.buffer.write(told)
    sys.stdout.flush()
    if refused is None:
        return 0
    print(f"smtsim: {refused.said}", file=sys.stderr)
    return refused.status


if __name__ == "__main__":
    sys.exit(main(sys.argv[1:]))
