#!/usr/bin/env python3
"""Final states of small litmus tests, twice: by all interleavings, and by all candidate executions of which none
of po, rf, co and fr together has a cycle (Shasha and Snir 1988; Alglave, Maranget and Tautschnig 2014). Both sets
are to be equal.

A test is a list of harts, each a text of words of three characters: `Rx5` reads x into x5, `Wx1` writes what x1
holds (x1 is 1, x2 is 2, other registers 0 until they are read into), `Ax5` adds 1 to x and reads what was there
into x5, `Lx5` and `Sx6` are LR into x5 and SC of 2 with its answer in x6.

    litmus_cycles.py [--tests N] [--seed N]      compares, and counts
    litmus_cycles.py --rows N [--seed N]         prints tests with a state and what is to be told of it, one a line
"""

import argparse
import itertools
import random

HELD = {1: 1, 2: 2}


def words(hart):
    return [(hart[i], hart[i + 1], int(hart[i + 2])) for i in range(0, len(hart), 3)]


def final(registers, memory):
    return (tuple(tuple(sorted(r.items())) for r in registers), tuple(sorted(memory.items())))


def interleavings(harts):
    """All final states of the machine whose harts step one at a time."""
    code = [words(h) for h in harts]
    seen, ends = set(), set()

    def go(pcs, registers, memory, reserved):
        key = (pcs, final(registers, memory), reserved)
        if key in seen:
            return
        seen.add(key)
        if all(pc == len(code[h]) for h, pc in enumerate(pcs)):
            ends.add(final(registers, memory))
        for h, pc in enumerate(pcs):
            if pc == len(code[h]):
                continue
            kind, loc, d = code[h][pc]
            regs = [dict(r) for r in registers]
            mem, res = dict(memory), list(reserved)
            wrote = False
            if kind in "RL":
                regs[h][d] = mem[loc]
                if kind == "L":
                    res[h] = loc
            elif kind == "W":
                mem[loc], wrote = regs[h].get(d, HELD.get(d, 0)), True
            elif kind == "A":
                regs[h][d] = mem[loc]
                mem[loc], wrote = mem[loc] + 1, True
            else:
                wrote = res[h] == loc
                regs[h][d] = 0 if wrote else 1
                res[h] = None
                if wrote:
                    mem[loc] = 2
            if wrote:
                res = [None if r == loc else r for r in res]
            go(pcs[:h] + (pc + 1,) + pcs[h + 1:], regs, mem, tuple(res))

    go((0,) * len(code), [{} for _ in code], {"x": 0, "y": 0}, (None,) * len(code))
    return ends


def sc_choices(code):
    """For each SC, whether it may write: where its hart's LR before it is of its location, with no other SC and no
    write of the hart's own to it between."""
    choices = []
    for h, hart in enumerate(code):
        held = None
        for i, (kind, loc, _) in enumerate(hart):
            if kind == "L":
                held = (loc, i)
            elif kind == "S":
                choices.append(((h, i), [True, False] if held and held[0] == loc else [None], held and held[1]))
                held = None
            elif kind in "WA" and held and held[0] == loc:
                held = None
    return choices


def solve(code, rf, success):
    """The registers, and what each event reads and writes, by sources; none where numbers go in a circle."""
    known = {}
    for _ in range(50):
        registers, values, is_open = [], {}, False
        for h, hart in enumerate(code):
            regs = dict(HELD)
            for i, (kind, loc, d) in enumerate(hart):
                e = (h, i)
                if kind in "RLA":
                    got = 0 if rf[e] is None else known.get(rf[e], (None, None))[1]
                    written = None if got is None else got + 1
                    values[e] = (got, written if kind == "A" else None)
                    is_open |= got is None
                    regs[d] = got
                elif kind == "W":
                    values[e] = (None, regs.get(d, 0))
                    is_open |= regs.get(d, 0) is None
                else:
                    values[e] = (None, 2 if success[e] else None)
                    regs[d] = 0 if success[e] else 1
            registers.append(regs)
        if values == known:
            return None if is_open else (registers, values)
        known = values
    return None


def candidates(harts):
    """Each candidate: its final state, its shortest cycle's number of edges (0 for none), whether it is atomic."""
    code = [words(h) for h in harts]
    events = [(h, i) for h, hart in enumerate(code) for i in range(len(hart))]
    kind = {e: code[e[0]][e[1]][0] for e in events}
    loc = {e: code[e[0]][e[1]][1] for e in events}
    scs = sc_choices(code)
    pair = {e: (e[0], lr) for e, may, lr in scs if may != [None]}
    for flags in itertools.product(*[may for _, may, _ in scs]):
        success = {e: flag for (e, _, _), flag in zip(scs, flags)}
        writes = [e for e in events if kind[e] in "WA" or success.get(e)]
        reads = [e for e in events if kind[e] in "RLA"]
        fails = [e for e in pair if success[e] is False]
        options = [[None] + [w for w in writes if w != r and loc[w] == loc[r]] for r in reads]
        for sources in itertools.product(*options):
            rf = dict(zip(reads, sources))
            solved = solve(code, rf, success)
            if solved is None:
                continue
            registers, values = solved
            orders = [itertools.permutations([w for w in writes if loc[w] == l]) for l in "xy"]
            for co in itertools.product(*orders):
                rank = {w: i + 1 for order in co for i, w in enumerate(order)}
                memory = {l: values[o[-1]][1] if o else 0 for l, o in zip("xy", co)}
                shown = [{d: r[d] for k, _, d in hart if k in "RLAS"} for hart, r in zip(code, registers)]
                state = final(shown, memory)
                source_rank = {r: 0 if rf[r] is None else rank[rf[r]] for r in reads}
                breakers = [[w for w in writes if loc[w] == loc[f] and w[0] != f[0]
                             and rank[w] > source_rank[pair[f]]] for f in fails]
                atomic = not any(loc[w] == loc[s] and w[0] != s[0] and source_rank[pair[s]] < rank[w] < rank[s]
                                 for s in pair if success[s] for w in writes)
                for broke in itertools.product(*breakers):
                    edges = set()
                    for a in events:
                        for b in events:
                            if a[0] == b[0] and a[1] < b[1]:
                                edges.add((a, b))
                            if a == b or loc[a] != loc[b] or b not in rank:
                                continue
                            if a in rank and rank[a] < rank[b]:
                                edges.add((a, b))
                            if a in source_rank and source_rank[a] < rank[b]:
                                edges.add((a, b))
                    edges |= {(w, r) for r, w in rf.items() if w is not None}
                    edges |= set(zip(broke, fails))
                    yield state, shortest(events, edges), atomic


def shortest(events, edges):
    best = 0
    for start in events:
        reached, length = {start}, 0
        while reached and (best == 0 or length + 1 < best):
            length += 1
            reached = {b for a, b in edges if a in reached}
            if start in reached:
                best = length
                break
            if length > len(events):
                break
    return best


def random_test(rng, with_reservations):
    harts = []
    for _ in range(rng.choice([2, 2, 2, 3])):
        register = iter(range(5, 10))
        hart, read = "", []
        for _ in range(rng.choice([2, 2, 3, 4] if len(harts) < 2 else [2])):
            kind = rng.choice("RRRWWWAD" + ("LSLS" if with_reservations else ""))
            loc = rng.choice("xy")
            if kind in "WD":
                hart += "W" + loc + str(rng.choice(read) if kind == "D" and read else rng.choice([1, 2]))
            else:
                d = next(register)
                hart += kind + loc + str(d)
                read.append(d)
        harts.append(hart)
    return harts


def compare(tests, seed):
    rng = random.Random(seed)
    states = cyclic = 0
    for number in range(tests):
        harts = random_test(rng, number % 3 == 2)
        ends = interleavings(harts)
        possible, others = set(), 0
        for state, cycle, atomic in candidates(harts):
            if cycle == 0 and atomic:
                possible.add(state)
            else:
                others += 1
        if possible != ends:
            print("differ:", "|".join(harts), sorted(possible ^ ends))
            return 1
        states += len(ends)
        cyclic += others
    print(f"{tests} tests, {states} final states, the same both ways; {cyclic} candidates excluded")
    return 0


def rows(count, seed):
    """harts ; registers of the state ; locations ; candidates, cyclic, not atomic, possible, edges of the shortest."""
    rng = random.Random(seed)
    done = 0
    while done < count:
        harts = random_test(rng, done % 3 == 2)
        # A write of what was read can be its own source by its number alone, which is counted there and not here.
        if any(k == "W" and d > 2 for hart in harts for k, _, d in words(hart)):
            continue
        by_state = {}
        for state, cycle, atomic in candidates(harts):
            by_state.setdefault(state, []).append((cycle, atomic))
        state = rng.choice(sorted(by_state))
        found = by_state[state]
        broken = sum(not atomic for _, atomic in found)
        lengths = [cycle for cycle, atomic in found if atomic and cycle]
        possible = sum(atomic and cycle == 0 for cycle, atomic in found)
        registers = ",".join(f"{h}:{d}={n}" for h, r in enumerate(state[0]) for d, n in r)
        places = ",".join(f"{l}={n}" for l, n in state[1])
        edges = 0 if possible or not lengths else min(lengths)
        print(f"{'|'.join(harts)} ; {registers} ; {places} ; {len(found)} {len(lengths)} {broken} {possible} {edges}")
        done += 1
    return 0


def main():
    parser = argparse.ArgumentParser()
    parser.add_argument("--tests", type=int, default=300)
    parser.add_argument("--rows", type=int, default=0)
    parser.add_argument("--seed", type=int, default=1)
    args = parser.parse_args()
    return rows(args.rows, args.seed) if args.rows else compare(args.tests, args.seed)


if __name__ == "__main__":
    raise SystemExit(main())
