"""The story of an order: what each step of the plain machine shows to other harts.

Written from docs/FORMATS.md, "The story". The machine is `plain`'s: a row is told of what its memory and its registers
are before a step, and of its record.
"""

from instructions import ATOMIC_RESULTS, NO_WORD, SIZES, compute, decode, spelled

NUMBER, FEW_HARTS, WIDE, NARROW = 5, 4, 24, 8
KEPT = 256


def reason(missed, h, address):
    """Why an SC of hart h at an address has written nothing, by the rows so far: (number, hart, name, what)."""
    own = [k for k, row in enumerate(missed) if row[1] == h and row[2] == "lr.w"]
    if not own or missed[own[-1]][3][:2] != ("read", address):
        return "no reservation"
    for number, hart, name, what in missed[own[-1] + 1 :]:
        if what[0] == "write" and what[1] // 4 == address // 4:
            return f"hart {hart}'s {name} at row {number} took the reservation"
    return "no reservation"


def bytes_of(what):
    return set(range(what[1], what[1] + what[2])) if what[0] in ("read", "write") else set()


def remark(rows, h, name, what):
    """What the last rows make of a store or an LR of hart h: a lost update, an ABA, or nothing."""
    if (name, what[0]) != ("lr.w", "read") and not (what[0] == "write" and name in ("sb", "sh", "sw")):
        return ""
    wanted, others = bytes_of(what), []
    for number, hart, other, done in reversed(rows[-KEPT:]):
        if not wanted & bytes_of(done):
            continue
        if hart != h:
            others += [(number, hart, other)] if done[0] == "write" else []
            continue
        if done[0] != "read" or not others or name == "lr.w" and done != what:
            return ""
        write = f"hart {others[0][1]}'s {others[0][2]} at row {others[0][0]}"
        if name == "lr.w":
            return f", ABA: as at row {number}, though {write} wrote since"
        return f", lost update: {write} came after the read at row {number}"
    return ""


def deed(machine, h, place_of, rows):
    """What hart h's step shows that the machine makes next: its name, its text, and what it does with memory. None where
    it shows nothing."""
    pc, numbers = machine.pcs[h], machine.registers[h]
    word = machine.read(pc, 4) if machine.image.has_word(pc) else None
    i = NO_WORD if word is None else decode(word)
    c = compute(i, pc, numbers[i.rs1], numbers[i.rs2])
    size = SIZES.get(i.name, 4)
    cause = None if i.kind == "compute" else machine.fault(i.kind, c.addr, size)
    after = c.next if cause is None else ("s", cause)
    if after[0] != "p":
        name = "ended" if after[0] == "e" else "stopped"
        return name, f"{name} {after[1]}", ("last", None)
    if i.kind == "compute":
        if c.out is None:
            return None
        shown = f"'{chr(c.out)}'" if 0x20 <= c.out <= 0x7E else f"0x{c.out:02x}"
        return "out", f"out {shown}", ("out", None)
    place = place_of(c.addr)
    if i.kind == "sc" and machine.reserved[h] != c.addr:
        return "sc.w", f"sc.w {place} fails: {reason(rows, h, c.addr)}", ("none", None)
    if i.kind in ("load", "lr"):
        number = machine.read(c.addr, size)
        what = ("read", c.addr, size, number)
        return i.name, f"{i.name} {place} → {number}{remark(rows, h, i.name, what)}", what
    if i.kind in ("store", "sc"):
        what = ("write", c.addr, size)
        return i.name, f"{i.name} {place} ← {c.data % 256**size}{remark(rows, h, i.name, what)}", what
    old = machine.read(c.addr, 4)
    return i.name, f"{i.name} {place} {old} → {ATOMIC_RESULTS[i.name](old, c.data)}", ("write", c.addr, 4)


def head(harts, width):
    return " " * NUMBER + "".join(f"h{h}".ljust(width) for h in range(harts)).rstrip()


def counted(steps):
    return [" " * NUMBER + (f"({steps} steps)" if steps > 1 else "(1 step)")] if steps else []


def instruction(machine, h):
    pc = machine.pcs[h]
    return spelled(machine.read(pc, 4), pc)


def story(machine, order, place_of, beside, with_all):
    """The lines of the story of an order that the machine makes, with what `beside` says of a pc behind each row."""
    harts = len(machine.pcs)
    width = WIDE if harts <= FEW_HARTS else NARROW
    yield head(harts, width)
    rows, number, hidden = [], 0, 0
    for h in order:
        shown, pc = deed(machine, h, place_of, rows), machine.pcs[h]
        if shown is None and not with_all:
            hidden += 1
        else:
            yield from counted(hidden)
            number, hidden = number + 1, 0
            text = instruction(machine, h) if shown is None else shown[1]
            behind = beside(pc)
            behind = f" {behind}" if behind else ""
            yield f"{number} ".ljust(NUMBER) + " " * (width * h) + text + behind
            if shown is not None:
                rows.append((number, h, shown[0], shown[2]))
        machine.step(h)
    yield from counted(hidden)
