#!/usr/bin/env python3
"""Holds what `smtsim litmus TEST --why` tells against the tests alone.

    litmus_told.py PROGRAM [--tests N] [--seed N]    families by name, other cycles by their edges, and N random tests
    litmus_told.py PROGRAM --images ..               the same of each test's program, by `smtsim outcomes IMAGE --why`
    litmus_told.py --show NAME                       the test that is made of a name

A name is that of a family (Maranget, Sarkar and Sewell, "A tutorial introduction to the ARM and POWER relaxed memory
models", 2012) or spells a cycle by diy's edges, as PodWW+Rfe+PodRR+Fre. Of each a test is made as diy does; the cycle
that is told is to be that cycle, edge for edge. Of random tests the state of some candidate is asked for; where it
can't come, the lines are to be those of litmus_why.py for one of the candidates that may be shown: it makes all
candidates, none of those that fit may be without a cycle, and it finds each edge from the test alone.
"""

import argparse
import itertools
import random
import subprocess
import sys
import tempfile

import litmus_reading
import litmus_why
from litmus_cycles import random_test, words

FAMILIES = {
    "SB": "PodWR Fre PodWR Fre", "MP": "PodWW Rfe PodRR Fre", "LB": "PodRW Rfe PodRW Rfe",
    "S": "PodWW Rfe PodRW Wse", "R": "PodWW Wse PodWR Fre", "2+2W": "PodWW Wse PodWW Wse",
    "3.SB": "PodWR Fre PodWR Fre PodWR Fre", "3.LB": "PodRW Rfe PodRW Rfe PodRW Rfe",
    "3.2W": "PodWW Wse PodWW Wse PodWW Wse", "ISA2": "PodWW Rfe PodRW Rfe PodRR Fre",
    "Z6.0": "PodWW Rfe PodRW Wse PodWR Fre", "Z6.1": "PodWW Wse PodWW Rfe PodRW Wse",
    "Z6.2": "PodWW Rfe PodRW Rfe PodRW Wse", "Z6.3": "PodWW Wse PodWW Rfe PodRR Fre",
    "Z6.4": "PodWW Wse PodWR Fre PodWR Fre", "Z6.5": "PodWW Wse PodWW Wse PodWR Fre",
    "WRC": "Rfe PodRW Rfe PodRR Fre", "WWC": "Rfe PodRW Rfe PodRW Wse", "RWC": "Rfe PodRR Fre PodWR Fre",
    "WRW+WR": "Rfe PodRW Wse PodWR Fre", "WRR+2W": "Rfe PodRR Fre PodWW Wse", "WRW+2W": "Rfe PodRW Wse PodWW Wse",
    "W+RWC": "PodWW Rfe PodRR Fre PodWR Fre", "IRIW": "Rfe PodRR Fre Rfe PodRR Fre",
    "IRRWIW": "Rfe PodRR Fre Rfe PodRW Wse", "IRWIW": "Rfe PodRW Wse Rfe PodRW Wse",
}
# How a hart may come from its accesses to another's at one location, by what the two do.
ACROSS = {"WR": (("Rfe",), ("Wse", "Rfe")), "RW": (("Fre",),), "WW": (("Wse",),), "RR": (("Fre", "Rfe"),)}
ENDS = {"Rfe": "WR", "Fre": "RW", "Wse": "WW"}
RELATIONS = {"Rfe": "rf", "Fre": "fr", "Wse": "co"}


def ends(edge):
    return ENDS.get(edge, edge[3:])


class Spelled:
    """The cycle of a name: its accesses as (hart, place, location, kind, number), and its edges between them."""

    def __init__(self, name):
        edges = FAMILIES.get(name, name.replace("+", " ")).split()
        # It begins with a hart, so that it ends with an edge between two.
        last = next(k for k in reversed(range(len(edges))) if edges[k] in RELATIONS)
        edges = edges[last + 1:] + edges[:last + 1]
        po = sum(e not in RELATIONS for e in edges)
        hart = location = place = 0
        self.accesses, self.edges = [], []
        for k, edge in enumerate(edges):
            assert ends(edges[k - 1])[1] == ends(edge)[0], f"{name}: {edges[k - 1]} {edge}"
            self.accesses.append([hart, place, location, ends(edge)[0], None])
            if edge in RELATIONS:
                hart, place = hart + 1, 0
            else:
                place, location = place + 1, (location + 1) % po
            self.edges.append((k, RELATIONS.get(edge, "po"), (k + 1) % len(edges)))
        self.last = {}
        for number in range(po):
            self.give_numbers(number, edges)

    def give_numbers(self, location, edges):
        """Numbers the accesses of a location in the order in which the cycle comes to them."""
        count = len(edges)
        there = [k for k in range(count) if self.accesses[k][2] == location]
        first = next(k for k in there if edges[k - 1] not in RELATIONS)
        number = writes = 0
        for k in ((first + turn) % count for turn in range(len(there))):
            if self.accesses[k][3] == "W":
                number = writes = writes + 1
            self.accesses[k][4] = number
        self.last[location] = writes

    def text(self, name):
        """The test, as diy makes it: its end is asked for."""
        harts = 1 + max(a[0] for a in self.accesses)
        starts, columns, terms = [], [[] for _ in range(harts)], []
        for hart, place, location, kind, number in self.accesses:
            address = f"x{20 + location}"
            starts.append(f"{hart}:{address}=v{location};")
            if kind == "W":
                columns[hart] += [f"li x{5 + place},{number}", f"sw x{5 + place},0({address})"]
            else:
                columns[hart].append(f"lw x{5 + place},0({address})")
                terms.append(f"{hart}:x{5 + place}={number}")
        terms += [f"v{location}={number}" for location, number in self.last.items() if number > 1]
        asked = " /\\ ".join(terms) or "true"
        return text_of(name, "".join(f"v{k}; " for k in self.last) + " ".join(starts), columns, f"exists ({asked})")

    def told(self):
        """Its edges by letters, which go by hart and place."""
        order = sorted(range(len(self.accesses)), key=lambda k: self.accesses[k][:2])
        letters = {k: litmus_why.letter(place) for place, k in enumerate(order)}
        return {(letters[a], relation, letters[b]) for a, relation, b in self.edges}


def text_of(name, starts, columns, question):
    rows = itertools.zip_longest(*columns, fillvalue="")
    heads = " | ".join(f"P{k}" for k in range(len(columns)))
    body = "".join(" " + " | ".join(row) + " ;\n" for row in rows)
    return f"RISCV {name}\n{{ {starts} }}\n {heads} ;\n{body}{question}\n"


def random_name(rng):
    """A cycle of two to four harts that each make two accesses, and of others that make one between them."""
    while True:
        kinds = [rng.choice("RW") + rng.choice("RW") for _ in range(rng.choice((2, 2, 3, 3, 4)))]
        edges = []
        for k, kind in enumerate(kinds):
            ways = ACROSS[kind[1] + kinds[(k + 1) % len(kinds)][0]]
            edges += [f"Pod{kind}", *rng.choice(ways)]
        if sum(e in RELATIONS for e in edges) <= 6:
            return "+".join(edges)


def random_text(rng):
    """A random test, and the end of some candidate of it, as far as it is asked for."""
    harts = random_test(rng, rng.random() < 0.4)
    columns, starts = [], ["x; y;"]
    for number, hart in enumerate(harts):
        starts.append(f"{number}:x1=1; {number}:x2=2; {number}:x20=x; {number}:x21=y;")
        columns.append([instruction(*word) for word in words(hart)])
    open_test = litmus_reading.read(text_of("random", " ".join(starts), columns, "exists (true)"))
    registers, last = random_end(rng, open_test)
    terms = [
        f"{number}:x{d}={registers[number][d]}"
        for number, hart in enumerate(harts) for kind, _, d in words(hart) if kind in "RLAS" and rng.random() < 0.9
    ]
    terms += [f"{name}={number}" for name, number in last.items() if rng.random() < 0.8]
    return text_of("random", " ".join(starts), columns, random_question(rng, terms))


def random_end(rng, test):
    """Registers and last numbers of a candidate: of one that has a cycle, isn't whole, isn't coherent or is none,
    whichever was drawn, where one is met soon."""
    ends = list(litmus_why.chosen_ways(test))
    rng.shuffle(ends)
    wanted = rng.choice(("cycle", "cycle", "atomicity", "coherence", "numbers"))
    for events, registers in ends[:80] if wanted != "numbers" else []:
        for candidate in itertools.islice(litmus_why.related(test, events), 200):
            if excluded_by(candidate) == wanted:
                return registers, candidate.last_numbers()
    events, registers = ends[0]
    numbers = {name: [a.writes for _, _, a in events if a.location == name and a.writes is not None] for name in "xy"}
    return registers, {name: rng.choice(there) for name, there in numbers.items() if there}


def excluded_by(candidate):
    if not candidate.is_coherent():
        return "coherence"
    if any(candidate.broken()):
        return "atomicity"
    return "cycle" if candidate.cycles()[0] else "nothing"


def random_question(rng, terms):
    """What is asked for: that these terms hold, in one of several ways."""
    rng.shuffle(terms)
    some = rng.randrange(len(terms) + 1)
    first, second = (" /\\ ".join(part) or "true" for part in (terms[:some], terms[some:]))
    return rng.choice((
        f"exists ({first} /\\ {second})", f"exists ({first} /\\ {second})", f"filter ({first}) exists ({second})",
        f"exists (not ({first} => not ({second})))", f"exists ({first} /\\ (true <=> {second}))",
    ))


def instruction(kind, location, digit):
    address = "(x20)" if location == "x" else "(x21)"
    return {
        "R": f"lw x{digit},0{address}", "W": f"sw x{digit},0{address}", "A": f"amoadd.w x{digit},x1,{address}",
        "L": f"lr.w x{digit},{address}", "S": f"sc.w x{digit},x2,{address}",
    }[kind]


def told_of(program, text, folder):
    """What the program tells of why, as lines; none where it tells that the condition holds of a state."""
    with open(f"{folder}/test", "w", encoding="latin-1") as file:
        file.write(text)
    done = subprocess.run([program, "litmus", f"{folder}/test", "--why"], capture_output=True, text=True, check=True)
    lines = done.stdout.split("\n")[:-1]
    behind = next(k for k, line in enumerate(lines) if line in ("always can end", "stuck"))
    return [] if lines[behind + 1].startswith("why: ") else lines[behind + 1:]


def told_of_image(program, text, folder):
    """What the program tells of the test's program, as lines without the places of its instructions."""
    with open(f"{folder}/test", "w", encoding="latin-1") as file:
        file.write(text)
    subprocess.run([program, "litmus", f"{folder}/test", "--image", f"{folder}/image"], capture_output=True, check=True)
    test = litmus_reading.read(text)
    # What nobody asks for, and one hart alone touches, is no location of a program.
    parts = [f"({name}=0 | !({name}=0))" for name in test.declared]
    parts += [spelled(asked, "(x5@0=0 | !(x5@0=0))") for asked in (test.question.condition, test.question.filter)]
    words = [program, "outcomes", f"{folder}/image", "--harts", str(len(test.code)), "--why", " & ".join(parts)]
    done = subprocess.run(words, capture_output=True, text=True, check=False)
    lines = done.stdout.split("\n")[:-1]
    behind = next(k for k, line in enumerate(lines) if line.startswith("never: "))
    if lines[behind] != "never: yes":
        return []
    return [line.partition(" at 8")[0] for line in lines[behind + 1:]]


def spelled(condition, always):
    """A condition as `smtsim outcomes` reads it, by one that always holds."""
    kind, *parts = condition
    if kind == "true":
        return always
    if kind == "term":
        what, value = parts
        name = f"x{what[1]}@{what[0]}" if isinstance(what, tuple) else what
        return f"{name}={value % 2**32}"
    texts = [f"({spelled(part, always)})" for part in parts]
    if kind in ("and", "or"):
        return (" & " if kind == "and" else " | ").join(texts)
    first, second = texts[0], texts[-1]
    return {
        "not": f"!{first}", "implies": f"!{first} | {second}", "iff": f"({first} & {second}) | (!{first} & !{second})",
    }[kind]


def may_be_told(text):
    """All that may be told of a test: each of the candidates that may be shown, with each of its cycles."""
    found = litmus_why.Found(litmus_reading.read(text), None)
    if not found.showable:
        return [list(found.lines())]
    told = []
    for found.shown, one in found.showable:
        found.way, found.break_ = (None, one) if found.why == "atomicity" else (one, None)
        told.append(list(found.lines()))
    return told


def edges_of(lines):
    """The edges of the lines `a -po-> b` and `a -fr x-> b`."""
    found = set()
    for line in lines:
        if "-> " in line:
            begin, _, end = line.partition("-> ")
            letter, _, relation = begin.partition(" -")
            found.add((letter, relation.split()[0], end))
    return found


def judge_names(program, names, folder, told_of):
    wrong = 0
    for name in names:
        cycle = Spelled(name)
        text = cycle.text(name)
        said = told_of(program, text, folder)
        if edges_of(said) != cycle.told() or said not in may_be_told(text):
            print(f"{name}: told {said[:2]}, spelled {sorted(cycle.told())}")
            wrong += 1
    print(f"{len(names)} cycles by their names, {wrong} told otherwise")
    return wrong


def judge_random(program, count, rng, folder, told_of):
    wrong = forbidden = tried = 0
    kinds = {}
    while forbidden < count:
        tried += 1
        text = random_text(rng)
        said = told_of(program, text, folder)
        if not said:
            continue
        forbidden += 1
        kind = said[0].partition("; ")[2]
        kinds[kind] = kinds.get(kind, 0) + 1
        if said not in may_be_told(text):
            print(f"{text}told otherwise:\n" + "\n".join(said))
            wrong += 1
    print(f"{forbidden} forbidden of {tried} random tests, {wrong} told otherwise")
    for kind, number in sorted(kinds.items()):
        print(f"  {number} {kind}")
    return wrong


def main():
    parser = argparse.ArgumentParser()
    parser.add_argument("program", nargs="?")
    parser.add_argument("--tests", type=int, default=200)
    parser.add_argument("--seed", type=int, default=1)
    parser.add_argument("--images", action="store_true")
    parser.add_argument("--show")
    args = parser.parse_args()
    if args.show:
        print(Spelled(args.show).text(args.show), end="")
        return 0
    rng = random.Random(args.seed)
    names = [*FAMILIES, *sorted({random_name(rng) for _ in range(60)})[:34]]
    with tempfile.TemporaryDirectory() as folder:
        told = told_of_image if args.images else told_of
        wrong = judge_names(args.program, names, folder, told)
        wrong += judge_random(args.program, args.tests, rng, folder, told)
    return 1 if wrong else 0


if __name__ == "__main__":
    sys.exit(main())
