"""Which event may come next: the second judge's rules.

Written from crates/smt_model/specs (Outcomes, Effects, Rules), under their names. The first test
that fails is the refusal, and an event for which none fails is allowed.
"""

from judge_history import COMPLETED, IN_DECODE, IN_RENAME, RENAMED, SQUASHED
from judge_history import History, first, is_last, read
from judge_inputs import Complete, Decode, Drop, Effect, Fetch, Issue, Outcome, Refetch, Rename, Retire
from judge_words import WRITTEN, computed, fault, op_of_word


class Rules(History):
    # ---- The fields that a completion and a retirement must have now

    def computed_at(self, n, f):
        """What an instruction computes of its operands, with the faults of its access."""
        a, b = (self.operand(n, f.seq, place) or 0 for place in ("first", "second"))
        op = op_of_word(f.word)
        c = computed(op, f.pc, a, b)
        cause = None if is_last(c.next) else fault(self.image, op, c.address)
        return op, c if cause is None else c._replace(next=("s", cause))

    def outcome_now(self, n, f):
        op, c = self.computed_at(n, f)
        if is_last(c.next):
            return Outcome(None, c.next)
        if op.kind == "computing":
            return Outcome(c.value if op.rd else None, c.next, out=c.out)
        if op.kind == "loading":
            look = read(op, c.address, lambda a: self.seen_byte(n, f.hart, f.seq, a))
            return Outcome(look if op.rd else None, c.next, c.address)
        return Outcome(None, c.next, c.address, None if op.kind == "reserving" else c.datum)

    def effect_now(self, n, f):
        op, c = self.computed_at(n, f)
        if is_last(c.next):
            return Effect(None, c.next)
        if op.kind == "computing":
            return Effect(c.value if op.rd else None, c.next, out=c.out)
        if op.kind == "storing":
            return Effect(None, c.next, (c.address, op.size, c.datum))
        now = read(op, c.address, lambda a: self.byte_at(n, a))
        if op.kind == "conditional":
            held = self.reserved(n, f.hart) == c.address
            write = (c.address, 4, c.datum) if held else None
            return Effect(int(not held) if op.rd else None, c.next, write)
        write = (c.address, 4, WRITTEN[op.name](now, c.datum)) if op.kind == "atomic" else None
        return Effect(now if op.rd else None, c.next, write)

    # ---- The rules

    def has_room(self, n, f, kind):
        """One of this kind has fewer than 16 of it in flight in its hart."""
        if op_of_word(f.word).kind != kind:
            return True
        return sum(self.op_at(n, t).kind == kind for t in self.flight(n, f.hart)) < 16

    def rules(self, n, e):
        """The tests of an event behind the first n, in their order: the first is rule 1."""
        yield e.actor < len(self.roles)
        yield from RULES[type(e)](self, n, e, self.fetching(n, e.seq))

    def fetch_rules(self, n, e, _):
        yield self.choice(n) == e.hart
        yield e.seq == self.fetches(n)
        yield e.pc == self.fetch_pc(n, e.hart)
        yield e.word == self.word_now(n, e.pc)

    def decode_rules(self, n, e, f):
        yield self.fate(n, e.seq) == IN_DECODE
        yield first(self.in_decode(n, f.hart)) == e.seq
        yield len(self.in_rename(n, f.hart)) < 8

    def rename_rules(self, n, e, f):
        yield self.fate(n, e.seq) == IN_RENAME
        yield first(self.in_rename(n, f.hart)) == e.seq
        yield len(self.queue(n)) < self.settings.queue
        yield len(self.flight(n, f.hart)) < 64
        yield self.has_room(n, f, "loading")
        yield self.has_room(n, f, "storing")
        yield (e.phys is not None) == (op_of_word(f.word).rd != 0)
        registers = 31 * self.harts + self.settings.extra
        yield e.phys is None or (e.phys < registers and self.claims(n, e.phys) == 0)

    def issue_rules(self, n, e, _):
        yield self.unit_of_actor(e.actor) is not None and self.job(n, e.actor) is None
        yield self.fate(n, e.seq) == RENAMED
        yield self.is_for(n, e.actor, e.seq)
        yield self.is_ready(n, e.seq)
        older = [t for t in self.queue(n) if t < e.seq]
        yield not any(self.is_for(n, e.actor, t) and self.is_ready(n, t) for t in older)

    def complete_rules(self, n, e, f):
        yield self.job(n, e.actor) == e.seq
        yield self.fate(n, e.seq) != SQUASHED
        yield e.outcome == self.outcome_now(n, f)

    def drop_rules(self, n, e, _):
        yield self.job(n, e.actor) == e.seq
        yield self.fate(n, e.seq) == SQUASHED

    def retire_rules(self, n, e, f):
        yield self.fate(n, e.seq) == COMPLETED
        yield first(self.flight(n, f.hart)) == e.seq
        yield e.effect == self.effect_now(n, f)
        yield self.is_fresh(n, f)

    def refetch_rules(self, n, e, f):
        yield self.fate(n, e.seq) == COMPLETED
        yield first(self.flight(n, f.hart)) == e.seq
        yield not self.is_fresh(n, f)

    def is_fresh(self, n, f):
        """The word at its pc now is the one that was fetched."""
        return f.word == self.word_now(n, f.pc)

    def refused(self, n):
        """The first rule that the event behind the first n breaks, None where it is allowed."""
        tests = enumerate(self.rules(n, self.events[n]), 1)
        return first(rule for rule, passed in tests if not passed)

    def first_refused(self):
        """The place, from 0, of the first event that isn't allowed, and the rule; None for none."""
        refusals = ((n, self.refused(n)) for n in range(len(self.events)))
        return first((n, rule) for n, rule in refusals if rule is not None)


# The tests of each kind of event from rule 2 on.
RULES = {
    Fetch: Rules.fetch_rules, Decode: Rules.decode_rules, Rename: Rules.rename_rules,
    Issue: Rules.issue_rules, Complete: Rules.complete_rules, Drop: Rules.drop_rules,
    Retire: Rules.retire_rules, Refetch: Rules.refetch_rules,
}
