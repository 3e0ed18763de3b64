#!/usr/bin/env python3
"""Holds the cycle that `smtsim litmus TEST --why` tells of each named test against the cycle that its name spells.

    litmus_named.py PROGRAM [FOLDER]    the tests NAME.litmus of a folder, examples/litmus else

A name begins with that of a family, whose cycle diy spells by edges (litmus_told.py has the families); what stands behind
its `+` says how accesses of one hart hang together (fences, dependencies, `.aq` and `.rl`), which are edges of program
order here. What a hart does between the first and the last of its accesses in the cycle is one such edge too, since the
cycle enters a hart once. Where all accesses are to one location and the name spells a cycle several times over, it is
told once. An AMO is read and written. Ends with 1 where one is told otherwise, and names those that spell no cycle.
"""

import os
import sys
import tempfile

import litmus_reading
from litmus_told import FAMILIES, told_of

# Names of tests at one location, by the hart that breaks coherence.
AT_ONE = {
    "CoRR": "Rfe PosRR Fre", "CoRR2": "Rfe PosRR Fre Rfe PosRR Fre", "CoRW1": "PosRW Rfi", "CoRW2": "Rfe PosRW Wse",
    "CoWR": "PosWR Fre Wse", "CoWR0": "PosWR Fri", "CoWW": "PosWW Wsi",
}
# Tests of a hart that reads what it has just written, behind a dependency (the ARM and POWER tutorial, section 10).
INSIDE = {name: "PodWW Rfe PodRW Rfi PodRR Fre" for name in ("PPOAA", "PPOCA")}
SUFFIXES = ("fence", "addr", "ctrl", "data", "poprl", "poaqp", "amoswap", "lr.aq")
# What diy's edges between accesses to one location are here, and which two accesses they have.
BETWEEN = {"Rf": ("rf", "WR"), "Fr": ("fr", "RW"), "Ws": ("co", "WW")}


def edges_of_name(name):
    """The edges that a name spells, as diy writes them; none where it spells no cycle."""
    for known in (AT_ONE, INSIDE, FAMILIES):
        if name in known:
            return known[name].split()
    family, _, behind = name.rpartition("+")
    while family and family not in FAMILIES:
        family, _, more = family.rpartition("+")
        behind = f"{more}+{behind}"
    if family and all(part.startswith(SUFFIXES) for part in behind.split("+")):
        return FAMILIES[family].split()
    return None


def least(edges):
    """The cycle as (relation, what the one does, what the other does), each hart's way from its first to its last access
    as one edge of program order."""
    first = next(k for k, edge in enumerate(edges) if edge[-1] == "e" or edge[:2] in BETWEEN)
    turned = edges[first + 1:] + edges[:first + 1]
    cycle = []
    for edge in turned:
        if edge[:2] in BETWEEN and (edge[-1] == "e" or is_last(turned, edge)):
            relation, kinds = BETWEEN[edge[:2]]
            cycle.append((relation, kinds[0], kinds[1]))
        elif edge[:2] in BETWEEN:
            continue
        elif cycle and cycle[-1][0] == "po":
            cycle[-1] = ("po", cycle[-1][1], edge[-1])
        else:
            cycle.append(("po", edge[-2], edge[-1]))
    # What reads what is written before another's write reads before that write: Fre Wse is fr.
    for k in range(len(cycle)):
        (relation, kind, _), (then, _, other) = cycle[k - 1], cycle[k]
        if relation in ("fr", "co") and then == "co":
            cycle[k] = (relation, kind, other)
            del cycle[k - 1]
            break
    half = len(cycle) // 2
    if is_by_coherence(edges) and cycle[:half] == cycle[half:]:
        return cycle[:half]
    return cycle


def is_last(edges, edge):
    """An edge within a hart that closes the cycle: all accesses are one hart's."""
    return all(other[-1] != "e" for other in edges) and edges[-1] == edge


def told(lines):
    """The cycle that is told, edge by edge in its order; what each access does may be both."""
    does = {}
    for line in lines:
        words = line.split()
        if len(words) > 4 and words[1] == "hart":
            does[words[0]] = words[3]
    cycle = []
    for line in lines:
        begin, arrow, to = line.partition("-> ")
        if arrow:
            letter, _, relation = begin.partition(" -")
            cycle.append((relation.split()[0], does[letter], does[to]))
    return cycle


def is_turned(cycle, spelled):
    """Whether it is that cycle, from whichever access on."""
    if len(cycle) != len(spelled):
        return False
    return any(
        all(r == s and a in x and b in y for (r, x, y), (s, a, b) in zip(cycle[k:] + cycle[:k], spelled))
        for k in range(len(cycle))
    )


def is_by_coherence(edges):
    return all(edge[:3] == "Pos" or edge[:2] in BETWEEN for edge in edges)


def verdict_fits(lines, edges):
    """Whether the sentence is that of a cycle, or of coherence where all is at one location; all were looked at."""
    if not lines:
        return False
    reasons = ("breaks coherence",) if is_by_coherence(edges) else ("it has a cycle", "each has a cycle")
    return any(reason in lines[0] for reason in reasons) and lines[0].endswith("all looked at")


def judge(program, path, name, folder):
    """What is wrong with what is told of a test, or nothing; none where its name spells no cycle."""
    edges = edges_of_name(name)
    if edges is None:
        return None
    with open(path, encoding="latin-1") as file:
        text = file.read()
    litmus_reading.read(text)
    lines = told_of(program, text, folder)
    cycle, spelled = told(lines), least(edges)
    if verdict_fits(lines, edges) and is_turned(cycle, spelled):
        return ""
    return f"{name}: told {lines[:2]}, spelled {' '.join(edges)}, which is {spelled}"


def main(words):
    program = words[0]
    tests = words[1] if len(words) > 1 else f"{os.path.dirname(__file__)}/../../examples/litmus"
    spelled, others, wrong = 0, [], 0
    with tempfile.TemporaryDirectory() as folder:
        for file in sorted(os.listdir(tests)):
            name, kind = os.path.splitext(file)
            if kind != ".litmus":
                continue
            found = judge(program, f"{tests}/{file}", name, folder)
            if found is None:
                others.append(name)
                continue
            spelled += 1
            if found:
                wrong += 1
                print(found)
    print(f"{spelled} tests whose names spell a cycle, {wrong} told otherwise")
    print(f"no cycle is spelled by {' '.join(others)}")
    return 1 if wrong else 0


if __name__ == "__main__":
    sys.exit(main(sys.argv[1:]))
