"""Writes tests of cycles into a folder, in the form in which diy7 writes them for RISC-V (from memory of its output).

    python3 tools/expected/diy_tests.py FOLDER [NAME ..]

A test is a cycle in diy's words, and for each hart its accesses: `Wx2` writes 2 to x, `Rx1` is to read 1 from x; before
one stands how it hangs on the one before: nothing (program order), a fence, or a dependency. Only tests that aren't in
the folder are written.
"""

import sys
from pathlib import Path

FENCES = {"rw.rw": "fence rw,rw", "w.w": "fence w,w", "r.r": "fence r,r", "tso": "fence.tso"}
SHORT = {"Rfe": "Rf", "Fre": "Fr", "Coe": "Co"}

# Name: the cycle, the harts, and what the words with two writes end with.
TESTS = {
    "S": ("PodWW Rfe PodRW Coe", ["Wx2 Wy1", "Ry1 Wx1"], "x=2"),
    "R": ("PodWW Coe PodWR Fre", ["Wx1 Wy1", "Wy2 Rx0"], "y=2"),
    "WRC": ("Rfe PodRW Rfe PodRR Fre", ["Wx1", "Rx1 Wy1", "Ry1 Rx0"], ""),
    "RWC": ("Rfe PodRR Fre PodWR Fre", ["Wx1", "Rx1 Ry0", "Wy1 Rx0"], ""),
    "WWC": ("Rfe PodRW Rfe PodRW Coe", ["Wx2", "Rx2 Wy1", "Ry1 Wx1"], "x=2"),
    "WRW+WR": ("Rfe PodRW Coe PodWR Fre", ["Wx1", "Rx1 Wy1", "Wy2 Rx0"], "y=2"),
    "WRR+2W": ("Rfe PodRR Fre PodWW Coe", ["Wx2", "Rx2 Ry0", "Wy1 Wx1"], "x=2"),
    "WRW+2W": ("Rfe PodRW Coe PodWW Coe", ["Wx2", "Rx2 Wy1", "Wy2 Wx1"], "x=2 y=2"),
    "ISA2": ("PodWW Rfe PodRW Rfe PodRR Fre", ["Wx1 Wy1", "Ry1 Wz1", "Rz1 Rx0"], ""),
    "W+RWC": ("PodWW Rfe PodRR Fre PodWR Fre", ["Wx1 Wy1", "Ry1 Rz0", "Wz1 Rx0"], ""),
    "3.SB": ("PodWR Fre PodWR Fre PodWR Fre", ["Wx1 Ry0", "Wy1 Rz0", "Wz1 Rx0"], ""),
    "3.LB": ("PodRW Rfe PodRW Rfe PodRW Rfe", ["Rx1 Wy1", "Ry1 Wz1", "Rz1 Wx1"], ""),
    "3.2W": ("PodWW Coe PodWW Coe PodWW Coe", ["Wx2 Wy1", "Wy2 Wz1", "Wz2 Wx1"], "x=2 y=2 z=2"),
    "Z6.0": ("PodWW Rfe PodRW Coe PodWR Fre", ["Wx1 Wy1", "Ry1 Wz1", "Wz2 Rx0"], "z=2"),
    "Z6.1": ("PodWW Coe PodWW Rfe PodRW Coe", ["Wx2 Wy1", "Wy2 Wz1", "Rz1 Wx1"], "x=2 y=2"),
    "Z6.2": ("PodWW Rfe PodRW Rfe PodRW Coe", ["Wx2 Wy1", "Ry1 Wz1", "Rz1 Wx1"], "x=2"),
    "Z6.3": ("PodWW Coe PodWW Rfe PodRR Fre", ["Wx1 Wy1", "Wy2 Wz1", "Rz1 Rx0"], "y=2"),
    "Z6.4": ("PodWW Coe PodWR Fre PodWR Fre", ["Wx1 Wy1", "Wy2 Rz0", "Wz1 Rx0"], "y=2"),
    "Z6.5": ("PodWW Coe PodWW Coe PodWR Fre", ["Wx1 Wy1", "Wy2 Wz1", "Wz2 Rx0"], "y=2 z=2"),
    "IRRWIW": ("Rfe PodRR Fre Rfe PodRW Coe", ["Wx2", "Rx2 Ry0", "Wy1", "Ry1 Wx1"], "x=2"),
    "IRWIW": ("Rfe PodRW Coe Rfe PodRW Coe", ["Wx2", "Rx2 Wy1", "Wy2", "Ry2 Wx1"], "x=2 y=2"),
    "CoRW2": ("Rfe PosRW Coe", ["Wx2", "Rx2 Wx1"], "x=2"),
    "CoWR0": ("PosWR Fri", ["Wx1 Rx0"], ""),
    "SB+fence.rw.rws": ("Fence.rw.rwdWR Fre Fence.rw.rwdWR Fre", ["Wx1 rw.rw Ry0", "Wy1 rw.rw Rx0"], ""),
    "SB+fence.tsos": ("Fence.tsodWR Fre Fence.tsodWR Fre", ["Wx1 tso Ry0", "Wy1 tso Rx0"], ""),
    "MP+fence.rw.rw+addr": ("Fence.rw.rwdWW Rfe DpAddrdR Fre", ["Wx1 rw.rw Wy1", "Ry1 addr Rx0"], ""),
    "MP+fence.w.w+fence.r.r": ("Fence.w.wdWW Rfe Fence.r.rdRR Fre", ["Wx1 w.w Wy1", "Ry1 r.r Rx0"], ""),
    "MP+fence.rw.rw+ctrl": ("Fence.rw.rwdWW Rfe DpCtrldR Fre", ["Wx1 rw.rw Wy1", "Ry1 ctrl Rx0"], ""),
    "LB+datas": ("DpDatadW Rfe DpDatadW Rfe", ["Rx1 data Wy1", "Ry1 data Wx1"], ""),
    "LB+addrs": ("DpAddrdW Rfe DpAddrdW Rfe", ["Rx1 addr Wy1", "Ry1 addr Wx1"], ""),
    "LB+ctrls": ("DpCtrldW Rfe DpCtrldW Rfe", ["Rx1 ctrl Wy1", "Ry1 ctrl Wx1"], ""),
    "S+fence.rw.rw+data": ("Fence.rw.rwdWW Rfe DpDatadW Coe", ["Wx2 rw.rw Wy1", "Ry1 data Wx1"], "x=2"),
    "R+fence.rw.rws": ("Fence.rw.rwdWW Coe Fence.rw.rwdWR Fre", ["Wx1 rw.rw Wy1", "Wy2 rw.rw Rx0"], "y=2"),
    "2+2W+fence.rw.rws": ("Fence.rw.rwdWW Coe Fence.rw.rwdWW Coe", ["Wx2 rw.rw Wy1", "Wy2 rw.rw Wx1"], "x=2 y=2"),
    "IRIW+addrs": ("Rfe DpAddrdR Fre Rfe DpAddrdR Fre", ["Wx1", "Rx1 addr Ry0", "Wy1", "Ry1 addr Rx0"], ""),
    "WRC+data+addr": ("Rfe DpDatadW Rfe DpAddrdR Fre", ["Wx1", "Rx1 data Wy1", "Ry1 addr Rx0"], ""),
    "PPOAA": ("Fence.rw.rwdWW Rfe DpAddrdW Rfi DpAddrdR Fre",
              ["Wx1 rw.rw Wy1", "Ry1 addr Wz1 Rz1 addr Rx0"], ""),
    "PPOCA": ("Fence.rw.rwdWW Rfe DpCtrldW Rfi DpAddrdR Fre",
              ["Wx1 rw.rw Wy1", "Ry1 ctrl Wz1 Rz1 addr Rx0"], ""),
}


class Hart:
    """The instructions of a hart as they are made: each register is taken once, x5 first."""

    def __init__(self, number):
        self.number, self.lines, self.addresses, self.asked = number, [], {}, []
        self.next, self.labels, self.last = 5, 0, None

    def register(self):
        self.next += 1
        return f"x{self.next - 1}"

    def address(self, location):
        if location not in self.addresses:
            self.addresses[location] = self.register()
        return self.addresses[location]

    def zero(self):
        """A register that is 0, and hangs on what was read last."""
        register = self.register()
        self.lines.append(f"xor {register},{self.last},{self.last}")
        return register

    def add(self, link, access):
        kind, location, number = access[0], access[1], access[2:]
        by = None
        if link in FENCES:
            self.lines.append(FENCES[link])
        elif link == "ctrl":
            self.lines += [f"bne {self.last},x0,LC0{self.labels}", f"LC0{self.labels}:"]
            self.labels += 1
        elif link in ("addr", "data"):
            by = self.zero()
        if kind == "W":
            value = by if link == "data" else self.register()
            self.lines.append(f"ori {value},{value if link == 'data' else 'x0'},{number}")
        else:
            value = self.last = self.register()
            self.asked.append((value, number))
        base = self.address(location)
        if link == "addr":
            there = self.register()
            self.lines.append(f"add {there},{base},{by}")
            base = there
        self.lines.append(f"{'sw' if kind == 'W' else 'lw'} {value},0({base})")


def hart_of(number, text):
    hart, link = Hart(number), None
    for word in text.split():
        if word[0] in "WR":
            hart.add(link, word)
            link = None
        else:
            link = word
    return hart


def prefetch(number, text):
    accesses = [word for word in text.split() if word[0] in "WR"]
    last = accesses[-1]
    ends = f"{number}:{last[1]}={'W' if last[0] == 'W' else 'T'}"
    if len(accesses) == 1 or accesses[0][1] == last[1]:
        return ends if last[0] == "W" else f"{number}:{last[1]}=F"
    return f"{number}:{accesses[0][1]}=F,{ends}"


def table(harts):
    rows = max(len(hart.lines) for hart in harts)
    columns = [[f"P{hart.number}", *hart.lines, *[""] * (rows - len(hart.lines))] for hart in harts]
    widths = [max(map(len, column)) for column in columns]
    for row in zip(*columns):
        yield " " + " | ".join(cell.ljust(width) for cell, width in zip(row, widths)) + " ;"


def text_of(name, cycle, harts, ends):
    edges = cycle.split()
    first = edges.index("Rfe") if "Rfe" in edges else next(k for k, e in enumerate(edges) if e[:2] in ("Fr", "Co"))
    turned = edges[first:] + edges[:first]
    safe = [edge for edge in ("Rfe", "Fre", "Coe") if edge in edges]
    safe += [edge for edge in dict.fromkeys(edges) if edge not in safe]
    made = [hart_of(number, text) for number, text in enumerate(harts)]
    yield f"RISCV {name}"
    yield f'"{cycle}"'
    yield f"Cycle={' '.join(turned)}"
    yield "Relax="
    yield f"Safe={' '.join(safe)}"
    yield f"Prefetch={','.join(prefetch(number, text) for number, text in enumerate(harts))}"
    yield f"Com={' '.join(SHORT[edge] for edge in edges if edge in SHORT)}"
    yield f"Orig={cycle}"
    yield "{"
    for hart in made:
        yield " ".join(f"{hart.number}:{register}={name};" for name, register in hart.addresses.items())
    yield "}"
    yield from table(made)
    yield "exists"
    terms = [*ends.split(), *(f"{hart.number}:{r}={n}" for hart in made for r, n in hart.asked)]
    yield "(" + " /\\ ".join(terms) + ")"


def main(words):
    for name, (cycle, harts, ends) in TESTS.items():
        file = Path(words[0]) / f"{name}.litmus"
        if (not words[1:] or name in words[1:]) and not file.exists():
            file.write_text("".join(f"{line}\n" for line in text_of(name, cycle, harts, ends)))


if __name__ == "__main__":
    main(sys.argv[1:])
