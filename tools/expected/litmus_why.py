#!/usr/bin/env python3
"""Why a litmus test's condition holds of no state: what `smtsim litmus TEST --why` prints behind the states, and what
its picture has, written from docs/FORMATS.md ("Why an outcome can't come").

    litmus_why.py TEST            the lines
    litmus_why.py TEST --picture  what litmus_picture.py tells of the picture

It makes all candidate executions, location by location, since coherence and atomicity are asked of each location
alone, and drops what isn't coherent or whole at one. Coherence is asked of accesses in two parts, a read and a write,
by whether there is a cycle. Where several cycles are as good as the one that would be shown, it prints the sentence
alone, and says so on standard error with status 4.
"""

import functools
import heapq
import itertools
import math
import sys

import litmus_reading
from instructions import ATOMIC_RESULTS, FORMS, TAKEN
from litmus import holds, test_file
from litmus_machine import TooMany, memory_of, number_of, numbers_of, result, with_register
from litmus_places import RAM, address_text, words_in

RELATIONS = ("po", "rf", "co", "fr", "breaks")
# How many accesses of a hart are followed, and how many steps between writes that change something.
MOST_ACCESSES, MOST_STEPS = 32, 200


def words_of(test):
    """The addresses of the words of the locations, by their names: `x`, and `x[1]` where an element begins the word."""
    begins = {one.byte: what for what, one in numbers_of(test).items()}
    return {begins[at]: RAM + at for at in range(0, 4 * words_in(test.declared), 4)}


def starts_of(test):
    """What the words hold at the start, by their names."""
    memory = memory_of(test)
    return {name: memory[address] for name, address in words_of(test).items()}


class Access:
    """What a hart does with memory at a step; of an SC, which access of its hart is its LR."""

    def __init__(self, step, location, reads, writes, load=None):
        self.step, self.location, self.reads, self.writes, self.load = step, location, reads, writes, load


def ways(test, hart, known):
    """All ways of a hart: its accesses, and its registers where it comes to its end, else None: it makes a needless
    turn, which isn't followed. `known` are the numbers of each location."""
    code = test.code[hart]
    registers = tuple(number_of(test.starts.get((hart, k), 0)) for k in range(32))
    waiting = [(0, registers, (), None, ())]
    while waiting:
        place, registers, accesses, held, stood = waiting.pop()
        if place == len(code):
            yield accesses, registers
            continue
        name, *operands = code[place]
        # What the step writes and doesn't read doesn't matter: its register, and of an LR what is held.
        is_anew = name not in ("fence", "sw", *TAKEN) and operands[0] not in read_by(name, operands)
        left = with_register(registers, operands[0], None) if is_anew else registers
        stands = place, left, None if name == "lr.w" else held
        if stands in stood:
            yield accesses, None
            continue
        if len(accesses) > MOST_ACCESSES or len(stood) > MOST_STEPS:
            raise TooMany
        stood = (*stood, stands)
        if name in TAKEN:
            is_taken = TAKEN[name](registers[operands[0]], registers[operands[1]])
            waiting.append((operands[2] if is_taken else place + 1, registers, accesses, held, stood))
        elif name == "fence":
            waiting.append((place + 1, registers, accesses, held, stood))
        elif name in ("lw", "sw", "lr.w", "sc.w", *ATOMIC_RESULTS):
            for after, access, now in accessed(test, place, name, operands, registers, accesses, held, known):
                more = accesses if access is None else (*accesses, access)
                since = () if access is not None and changes(test, access) else stood
                waiting.append((place + 1, after, more, now, since))
        else:
            after = with_register(registers, operands[0], result(name, registers, operands[1:]))
            waiting.append((place + 1, after, accesses, held, stood))


def read_by(name, operands):
    """The registers that an instruction reads which writes one."""
    if name in ("li", "lui"):
        return []
    if name in ("lw", "lr.w"):
        return operands[-1:]
    return operands[1:2] if name in FORMS else operands[1:]


def changes(test, access):
    """Whether an access is missed where it is left out. An AMO that writes what it reads isn't, unless an SC may fail
    for it."""
    has_conditionals = any(name == "sc.w" for code in test.code for name, *_ in code)
    return access.writes is not None and (has_conditionals or access.writes != access.reads)


def accessed(test, place, name, operands, registers, accesses, held, known):
    """All that an access may come to: the registers, the access if there is one, and the LR that is held."""
    offset = operands[1] if name in ("lw", "sw") else 0
    location = next(n for n, at in words_of(test).items() if at == registers[operands[-1]] + offset)
    own = None if held and held[0] == location else held
    if name == "sw":
        yield registers, Access(place, location, None, registers[operands[0]]), own
    elif name == "sc.w":
        if held is None or held[0] != location:
            yield with_register(registers, operands[0], 1), None, None
            return
        number = registers[operands[1]]
        yield with_register(registers, operands[0], 0), Access(place, location, None, number, held[1]), None
        yield with_register(registers, operands[0], 1), Access(place, location, None, None, held[1]), None
    else:
        for number in sorted(known[location]):
            after = with_register(registers, operands[0], number)
            if name == "lr.w":
                yield after, Access(place, location, number, None), (location, len(accesses))
            elif name == "lw":
                yield after, Access(place, location, number, None), held
            else:
                written = ATOMIC_RESULTS[name](number, registers[operands[1]])
                yield after, Access(place, location, number, written), own


def all_ways(test):
    """Each hart's ways, where each read finds a number that is there at the start or that is written on some way. A
    number that is new in a round is read from a write that stands behind a read of one that was new in the round
    before, and so on: where the locations with new numbers in the last k rounds are written fewer than k times in any
    execution, none reads those of the last round."""
    known = {name: {number} for name, number in starts_of(test).items()}
    grown = []
    while True:
        found = [list(ways(test, hart, known)) for hart in range(len(test.code))]
        most = {name: sum(max(writes_at(accesses, name) for accesses, _ in hart) for hart in found) for name in known}
        written = {name: set(numbers) for name, numbers in known.items()}
        for access in (a for hart in found for accesses, _ in hart for a in accesses if a.writes is not None):
            written[access.location].add(access.writes)
        grown.append({name for name in known if written[name] != known[name]})
        if any(sum(most[n] for n in set().union(*grown[-k:])) < k for k in range(1, len(grown) + 1)):
            return [[(accesses, registers) for accesses, registers in hart if registers is not None] for hart in found]
        known = written


def writes_at(accesses, name):
    return sum(a.writes is not None and a.location == name for a in accesses)


class Candidate:
    """An execution: its events (hart, place, access) hart by hart; which event each read reads (None: the start), and
    which breaks each SC that fails; the place of each write in the coherence order of its location, from 1."""

    def __init__(self, events, sources, ranks, breakers):
        self.events, self.sources, self.ranks, self.breakers = events, sources, ranks, breakers

    @functools.cached_property
    def edges(self):
        edges = {r: set() for r in RELATIONS}
        for a, b in itertools.permutations(range(len(self.events)), 2):
            for relation in self.relations(a, b):
                edges[relation].add((a, b))
        return edges

    def source_rank(self, event):
        return self.ranks.get(self.sources[event], 0)

    def relations(self, a, b):
        (hart, place, first), (other_hart, other_place, other) = self.events[a], self.events[b]
        same = first.location == other.location
        if hart == other_hart and place < other_place:
            yield "po"
        if b in self.sources and self.sources[b] == a:
            yield "rf"
        if same and a in self.ranks and b in self.ranks and self.ranks[a] < self.ranks[b]:
            yield "co"
        if same and a in self.sources and b in self.ranks and self.source_rank(a) < self.ranks[b]:
            yield "fr"
        if b in self.breakers and self.breakers[b] == a:
            yield "breaks"

    def load_of(self, event):
        """The event whose read goes with an access: an AMO itself, of an SC its LR."""
        hart, _, access = self.events[event]
        if access.reads is not None:
            return event
        return next((i for i, (h, p, _) in enumerate(self.events) if h == hart and p == access.load), None)

    def broken(self):
        """Each load, write and store that atomicity excludes."""
        for store in self.ranks:
            hart, _, access = self.events[store]
            load = self.load_of(store)
            if load not in self.sources:
                continue
            for write in self.ranks:
                other, _, there = self.events[write]
                if other != hart and there.location == access.location:
                    if self.source_rank(load) < self.ranks[write] < self.ranks[store]:
                        yield load, write, store

    def is_coherent(self):
        """Whether po, rf, co and fr at one location have no cycle, where an AMO reads, and then writes."""
        parts = [(e, "R") for e in self.sources] + [(e, "W") for e in self.ranks]
        place = {p: (self.events[p[0]][1], p[1]) for p in parts}
        after = {p: set() for p in parts}
        for p, q in itertools.permutations(parts, 2):
            (hart, _, a), (other, _, b) = self.events[p[0]], self.events[q[0]]
            if a.location != b.location:
                continue
            is_before = hart == other and place[p] < place[q]
            rf = p[1] == "W" and q[1] == "R" and self.sources[q[0]] == p[0]
            co = p[1] == q[1] == "W" and self.ranks[p[0]] < self.ranks[q[0]]
            fr = p[1] == "R" and q[1] == "W" and self.source_rank(p[0]) < self.ranks[q[0]]
            if is_before or rf or co or fr:
                after[p].add(q)
        return not has_cycle(after)

    def last_numbers(self):
        """What the write of each location writes that is last, where one is."""
        return {self.events[w][2].location: self.events[w][2].writes for w in sorted(self.ranks, key=self.ranks.get)}

    def writes_in_order(self):
        """Whether a hart's writes to a location stand in it as they do in its program."""
        return all(
            self.ranks[a] < self.ranks[b] for a, b in itertools.combinations(sorted(self.ranks), 2)
            if self.events[a][0] == self.events[b][0] and self.events[a][2].location == self.events[b][2].location
        )

    def cycles(self, is_wanted=lambda a, b: True):
        """What the least cycle costs, edges of po before edges in all, and each that costs as much, once, as events
        from its first one on."""
        after = {i: {} for i in range(len(self.events))}
        for relation, edges in self.edges.items():
            for a, b in edges:
                if is_wanted(self.events[a][2], self.events[b][2]):
                    po = 1 if relation == "po" else 0
                    after[a][b] = min(po, after[a].get(b, 1))
        back = {i: least_ways(after, i) for i in after}
        costs = [back[i][i] for i in after if i in back[i]]
        if not costs:
            return None, []
        least = min(costs)
        return least, [way for i in after for way in round_trips(after, back, (i,), least)]


def has_cycle(after):
    """Whether there is a cycle: what none leads to goes, until all are gone."""
    left = dict(after)
    while left:
        free = [p for p in left if not any(p in left[q] for q in left)]
        if not free:
            return True
        for p in free:
            del left[p]
    return False


def least_ways(after, end):
    """What the least way from each event to this one costs, of one edge or more (Dijkstra 1959)."""
    before = {i: [] for i in after}
    for a, there in after.items():
        for b, po in there.items():
            before[b].append((a, po))
    cost, waiting = {}, [((po, 1), a) for a, po in before[end]]
    heapq.heapify(waiting)
    while waiting:
        (po, edges), at = heapq.heappop(waiting)
        if at in cost:
            continue
        cost[at] = po, edges
        for a, more in before[at]:
            heapq.heappush(waiting, ((po + more, edges + 1), a))
    return cost


def round_trips(after, back, way, least):
    """Each way back to its first event, over later ones alone, that costs as much as is left."""
    for there, po in after[way[-1]].items():
        rest = least[0] - po, least[1] - 1
        if there == way[0] and rest == (0, 0):
            yield way
        elif there > way[0] and there not in way and back[way[0]].get(there, (99, 99)) == rest:
            yield from round_trips(after, back, (*way, there), rest)


def chosen_ways(test):
    """The events and the registers of each choice of ways that the registers leave open."""
    for chosen in itertools.product(*all_ways(test)):
        events = [(hart, place, a) for hart, (accesses, _) in enumerate(chosen) for place, a in enumerate(accesses)]
        registers = [registers for _, registers in chosen]
        asked = ("and", test.question.filter, test.question.condition)
        if may_hold(test, registers, asked) is not False:
            yield events, registers


def may_hold(test, registers, condition):
    """What the registers alone say of a condition: True, False, or None where a location decides."""
    kind, *parts = condition
    if kind == "true":
        return True
    if kind == "term":
        what, value = parts
        return registers[what[0]][what[1]] == number_of(value) if isinstance(what, tuple) else None
    told = [may_hold(test, registers, part) for part in parts]
    if kind in ("not", "implies"):
        told[0] = None if told[0] is None else not told[0]
    if kind == "not":
        return told[0]
    if kind == "iff":
        return None if None in told else told[0] == told[1]
    settled = kind in ("or", "implies")
    if settled in told:
        return settled
    return None if None in told else not settled


def count(events):
    """How many choices there are of what each read reads, which write broke each SC that fails, and in which order each
    location is written."""
    number = 1
    for name in {a.location for _, _, a in events}:
        number *= math.factorial(sum(a.writes is not None and a.location == name for _, _, a in events))
    for e, (hart, _, a) in enumerate(events):
        writes = [(h, k) for k, (h, _, w) in enumerate(events) if w.writes is not None and w.location == a.location]
        if a.reads is not None:
            number *= 1 + sum(k != e for _, k in writes)
        elif a.writes is None:
            number *= sum(h != hart for h, _ in writes)
    return number


def related(test, events, is_kept=lambda candidate: True):
    """All candidates of these events that have their numbers, and of which each location alone is kept: what isn't kept
    of a part isn't kept of any whole that it is of."""
    parts = [list(related_at(test, events, name, is_kept)) for name in words_of(test)]
    for chosen in itertools.product(*parts):
        sources, ranks, breakers = ({k: v for part in chosen for k, v in part[i].items()} for i in range(3))
        yield Candidate(events, sources, ranks, breakers)


def related_at(test, events, name, is_kept):
    """All choices at a location: the sources of its reads, the places of its writes, what breaks its SCs that fail."""
    here = [(k, hart, a) for k, (hart, _, a) in enumerate(events) if a.location == name]
    writes = [k for k, _, a in here if a.writes is not None]
    options = {}
    for read, _, access in here:
        if access.reads is not None:
            at_start = [None] if starts_of(test)[name] == access.reads else []
            options[read] = at_start + [w for w in writes if w != read and events[w][2].writes == access.reads]
    kept = [({}, {})]
    for rank in range(1, len(writes) + 1):
        kept = [(s, {**ranks, w: rank}) for s, ranks in kept for w in writes if w not in ranks]
        kept = [(s, ranks) for s, ranks in kept if is_kept(Candidate(events, s, ranks, {}))]
    for read, sources in options.items():
        kept = [({**s, read: source}, ranks) for s, ranks in kept for source in sources]
        kept = [(s, ranks) for s, ranks in kept if is_kept(Candidate(events, s, ranks, {}))]
    for sources, ranks in kept:
        found = Candidate(events, sources, ranks, {})
        fails = {k: [w for w in writes if events[w][0] != hart and found.source_rank(found.load_of(k)) < ranks[w]]
                 for k, hart, a in here if a.reads is None and a.writes is None}
        for broke in itertools.product(*fails.values()):
            yield sources, ranks, dict(zip(fails, broke))


def meets(test, registers, candidate):
    numbers = []
    for what in test.question.observed:
        if isinstance(what, tuple):
            numbers.append(registers[what[0]][what[1]])
            continue
        one = numbers_of(test)[what]
        word = next(name for name, address in words_of(test).items() if address == RAM + one.byte // 4 * 4)
        number, last = starts_of(test)[word], 0
        for write, rank in candidate.ranks.items():
            access = candidate.events[write][2]
            if access.location == word and rank > last:
                number, last = access.writes, rank
        numbers.append(number >> 8 * (one.byte % 4) & (1 << 8 * one.size) - 1)
    return holds(test, test.question.filter, numbers) and holds(test, test.question.condition, numbers)


def letter(event):
    return chr(ord("a") + event % 26) + (str(event // 26) if event >= 26 else "")


def number_text(test, number):
    is_address = RAM <= number < RAM + 4 * words_in(test.declared)
    return address_text(test.declared, number - RAM) if is_address else str(number)


def access_text(test, access):
    kind = {(True, True): "RW", (True, False): "R", (False, True): "W", (False, False): "F"}
    words = [kind[access.reads is not None, access.writes is not None], access.location]
    words += [number_text(test, n) for n in (access.reads, access.writes) if n is not None]
    return " ".join(words)


def instruction_text(test, hart, step):
    name, *operands = test.code[hart][step]
    if name in ("lw", "sw"):
        return f"{name} x{operands[0]},{operands[1]}(x{operands[2]})"
    return f"{name} {''.join(f'x{o},' for o in operands[:-1])}(x{operands[-1]})"


def event_line(test, candidate, event):
    hart, _, access = candidate.events[event]
    return f"{letter(event)} hart {hart} {access_text(test, access)} {instruction_text(test, hart, access.step)}"


def relation_of(candidate, a, b):
    return next(r for r in ("rf", "co", "fr", "breaks", "po") if (a, b) in candidate.edges[r])


def steps_of(candidate, way):
    return [(a, relation_of(candidate, a, b), b) for a, b in zip(way, (*way[1:], way[0]))]


def commas(number):
    return f"{number:,}"


def meeting(test, is_kept=lambda candidate: True):
    """The candidates that are kept and in which the condition holds."""
    for events, registers in chosen_ways(test):
        yield from (c for c in related(test, events, is_kept) if meets(test, registers, c))


def is_any(candidates):
    return next(candidates, None) is not None


class Found:
    """All candidates, by what excludes them, and those of which one is shown: each with a cycle, or what is broken. Of
    those that break coherence or atomicity so many are looked for: two say that there are several; all, where it is
    None."""

    def __init__(self, test, most=2):
        self.test, self.showable = test, []
        self.count = sum(count(events) for events, _ in chosen_ways(test))
        self.fitting = list(meeting(test, lambda c: c.is_coherent() and not any(c.broken())))
        coherent = meeting(test, Candidate.is_coherent)
        in_order = meeting(test, Candidate.writes_in_order)
        if self.fitting:
            self.why = "cycle"
            told = [(c, *c.cycles()) for c in self.fitting]
            self.possible = [c for c, cost, _ in told if cost is None]
            if not self.possible:
                least = min(cost for _, cost, _ in told)
                self.showable = [(c, way) for c, cost, ways in told if cost == least for way in ways]
        elif is_any(coherent):
            self.why = "atomicity"
            broken = ((c, one) for c in meeting(test, Candidate.is_coherent) for one in c.broken())
            self.showable = list(itertools.islice(broken, most))
        elif is_any(meeting(test)):
            self.why = "coherence"
            told = meeting(test, Candidate.writes_in_order) if is_any(in_order) else meeting(test)
            cycles = ((c, way) for c in told for way in c.cycles(lambda a, b: a.location == b.location)[1])
            self.showable = list(itertools.islice(cycles, most))
        else:
            self.why = "numbers"
        self.shown = self.way = self.break_ = None
        if len(self.showable) == 1:
            self.shown, one = self.showable[0]
            self.way, self.break_ = (None, one) if self.why == "atomicity" else (one, None)

    def verdict(self):
        number = len(self.fitting)
        reason = {
            "cycle": "one has no cycle" if self.fitting and self.possible else
                     "it has a cycle" if number == 1 else "each has a cycle",
            "atomicity": "what has them and is coherent breaks atomicity",
            "coherence": "what has them breaks coherence",
            "numbers": "no writes make them",
        }[self.why]
        candidates = "candidate" if self.count == 1 else "candidates"
        fit = "fit" if number > 1 else "fits"
        found = commas(number) if number else "none"
        return f"{found} of {commas(self.count)} {candidates} {fit} the numbers; {reason}, all looked at"

    def lines(self):
        yield self.verdict()
        if self.shown is None:
            return
        steps = steps_of(self.shown, self.way) if self.way else []
        yield self.head()
        yield from (event_line(self.test, self.shown, e) for e in range(len(self.shown.events)))
        for a, relation, b in steps:
            where = "" if relation == "po" else f" {self.shown.events[b][2].location}"
            yield f"{letter(a)} -{relation}{where}-> {letter(b)}"

    def head(self):
        """The line of the cycle, or of what is broken."""
        if self.way:
            steps = steps_of(self.shown, self.way)
            return f"cycle {letter(self.way[0])}" + "".join(f" {r} {letter(b)}" for _, r, b in steps)
        load, write, store = map(letter, self.break_)
        if load == store:
            return f"{write} lies between what {store} reads and what it writes"
        return f"{write} lies between {load} and {store}"

    def picture(self):
        """What the picture has: the harts, what is there at the start and at the end, a box an event, and the arrows."""
        yield f"title {self.test.name}: {self.verdict()}"
        shown, events = self.shown, self.shown.events
        yield from (f"hart {hart} in column {hart}" for hart in range(len(self.test.code)))
        starts, ends = starts_of(self.test), self.ends()
        accessed = [name for name in words_of(self.test) if name in {access.location for _, _, access in events}]
        yield "start " + ", ".join(f"{name} {number_text(self.test, starts[name])}" for name in accessed)
        yield "end " + ", ".join(f"{name} {number_text(self.test, ends[name])}" for name in accessed)
        for event, (hart, place, access) in enumerate(events):
            text = f"{access_text(self.test, access)} | {instruction_text(self.test, hart, access.step)}"
            yield f"box {letter(event)} in column {hart}, row {place}: {text}"
        yield from sorted(self.arrows())

    def ends(self):
        """What the words hold at the end: what the last write of each in coherence order has written."""
        ends = starts_of(self.test)
        for event in sorted(self.shown.ranks, key=self.shown.ranks.get):
            access = self.shown.events[event][2]
            ends[access.location] = access.writes
        return ends

    def arrows(self):
        shown, events = self.shown, self.shown.events
        thick = set(steps_of(shown, self.way)) if self.way else set()
        yield from (f"arrow {letter(a)} {r} {letter(b)}, thick" for a, r, b in thick)
        thin = {(a, "rf", b) for a, b in shown.edges["rf"]} | {(a, "breaks", b) for a, b in shown.edges["breaks"]}
        thin |= {(a, "po", b) for a, b in shown.edges["po"] if events[b][1] == events[a][1] + 1}
        thin |= {(a, "co", b) for a, b in shown.edges["co"] if shown.ranks[b] == shown.ranks[a] + 1}
        yield from (f"arrow {letter(a)} {r} {letter(b)}" for a, r, b in thin - thick)
        for read, source in shown.sources.items():
            if source is None:
                yield f"arrow start rf {letter(read)}"


def main(words):
    found = Found(litmus_reading.read(test_file(words[0]).decode("latin-1")))
    is_picture = "--picture" in words
    if is_picture and found.shown is None:
        sys.stderr.write("litmus_why.py: which candidate is drawn isn't determined\n")
        return 4
    for line in found.picture() if is_picture else found.lines():
        print(line)
    if found.showable and found.shown is None:
        sys.stderr.write("litmus_why.py: which candidate is shown isn't determined\n")
        return 4
    return 0


if __name__ == "__main__":
    sys.exit(main(sys.argv[1:]))
