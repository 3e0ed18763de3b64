#!/usr/bin/env python3
"""The picture of a story, as docs/FORMATS.md says it, from the story's text: story_picture.py HARTS [THEME [found]]

It reads the text of `smtsim plain --story`, or the file of `smtsim outcomes --story`, on standard input, and writes the
SVG file, without the titles of rows. THEME is `auto` (where none is given), `light` or `dark`; with `found` behind it,
the order is one of `outcomes`: then the last rows of harts that go on are marked, and what stands behind the rows is
the foot. Two places are the same bytes where they have the same name, or both have none: so it is right where each
place is told by one name.
"""

import re
import sys
from xml.sax.saxutils import escape

LEFT, LANE, BOX = 64, 470, 320
TOP, ROW, HEIGHT = 120, 34, 24
BESIDE, FOOT, WIDE, WIDEST = 310, 18, 90, 110

LIGHT = """text{font:12px monospace;fill:#1b1b1b}
.page{fill:#ffffff}
.far{fill:#5b5b5b}
.name{font:bold 13px monospace;text-anchor:middle}
.count{fill:#5b5b5b;text-anchor:end}
.lane{stroke:#c4c8ce;stroke-dasharray:2 4}
.box{fill:#f4f4f4;stroke:#8a8a8a}
.reads{fill:#e3f1fb;stroke:#0072b2}
.writes{fill:#fdeed3;stroke:#b57b00}
.both{fill:#ddf3eb;stroke:#009e73}
.over{fill:#ffffff;stroke-dasharray:5 3}
.stuck{stroke:#8e3a8c;stroke-width:2.6}
.fault{fill:#fbd9cf;stroke:#c22f00;stroke-width:3}
.mark{stroke:#ffffff;stroke-width:4;paint-order:stroke}
.over-is{fill:#5b5b5b}
.stuck-is{font:bold 12px monospace;fill:#8e3a8c}
.fault-is{font:bold 12px monospace;fill:#c22f00}
.arrow{fill:none;stroke:#6b7280;stroke-width:1.5}
.point{fill:#6b7280}
"""
DARK = """text{fill:#ececec}
.page{fill:#16181d}
.far,.count{fill:#a2a7b0}
.lane{stroke:#434956}
.box{fill:#23262e;stroke:#747b88}
.reads{fill:#16303f;stroke:#56b4e9}
.writes{fill:#3a2e14;stroke:#e6a830}
.both{fill:#143329;stroke:#2fc79b}
.over{fill:#16181d}
.stuck{stroke:#e08fdd}
.fault{fill:#4a1d10;stroke:#ff8257}
.mark{stroke:#16181d}
.over-is{fill:#a2a7b0}
.stuck-is{fill:#e08fdd}
.fault-is{fill:#ff8257}
.arrow{stroke:#9aa3b2}
.point{fill:#9aa3b2}
"""
LEGEND = """</style>
<rect class="page" width="100%" height="100%"/>
<marker id="point" viewBox="0 0 8 8" refX="7" refY="4" markerUnits="userSpaceOnUse" markerWidth="11" \
markerHeight="11" orient="auto"><path class="point" d="M0 0L8 4L0 8z"/></marker>
<text class="far" x="16" y="22">Time goes down. An arrow leads from a write to each read that found its number.</text>
<text class="far" x="16" y="40">A read without an arrow found what was there at the start.</text>
<rect class="box reads" x="16" y="52" width="14" height="12"/><text class="far" x="36" y="62">reads</text>
<rect class="box writes" x="92" y="52" width="14" height="12"/><text class="far" x="112" y="62">writes</text>
<rect class="box both" x="176" y="52" width="14" height="12"/><text class="far" x="196" y="62">reads and writes</text>
<rect class="box writes over" x="332" y="52" width="14" height="12"/>\
<text class="far" x="352" y="62">overwritten before anyone read it</text>
<rect class="box writes fault" x="610" y="52" width="14" height="12"/>\
<text class="far" x="630" y="62">last lost update, or ABA</text>
"""
SIZES = {"lb": 1, "lbu": 1, "lh": 2, "lhu": 2, "lw": 4, "sb": 1, "sh": 2, "sw": 4}


class Step:
    def __init__(self, number, hart, text):
        self.number, self.hart = number, hart
        self.text = re.sub(r" fails: .*|, (lost update|ABA): .*", lambda m: " fails" if m[1] is None else "", text)
        self.note = self.noted(text)
        self.fault = self.note.startswith(("lost update", "ABA"))
        self.ends = text.startswith(("ended ", "stopped "))
        word, _, rest = text.partition(" ")
        self.reads = word in ("lb", "lbu", "lh", "lhu", "lw", "lr.w") or word.startswith("amo")
        self.writes = word in ("sb", "sh", "sw") or word.startswith("amo") or (word == "sc.w" and "fails" not in rest)
        self.bytes = []
        if self.reads or self.writes:
            name, behind = self.place(rest.split(" ")[0])
            self.bytes = [(name, behind + k) for k in range(SIZES.get(word, 4))]

    @staticmethod
    def noted(text):
        """What stands beside the box, of what the text says behind the row."""
        if lost := re.search(r", lost update: .* at row (\d+) came after the read at row (\d+)$", text):
            return f"lost update: row {lost[1]} wrote since row {lost[2]}"
        if again := re.search(r", ABA: as at row (\d+), though .* at row (\d+) wrote since$", text):
            return f"ABA: as in row {again[1]}, though row {again[2]} wrote since"
        return text[text.index(" fails: ") + 1 :] if " fails: " in text else ""

    @staticmethod
    def place(text):
        if re.fullmatch(r"[0-9a-f]{8}", text):
            return "", int(text, 16)
        name, _, behind = text.partition("+")
        return name, int(behind or 0)

    def kind(self):
        return {(True, False): "box reads", (False, True): "box writes", (True, True): "box both"}.get(
            (self.reads, self.writes), "box")


def read(text):
    """The rows of a story: their columns are those of the head."""
    lines = text.split("\n")
    columns = [m.start() for m in re.finditer("h", lines[0])]
    for line in lines[1:]:
        found = re.match(r"(\d+) +(.*?)(  .*)?$", line)
        if found:
            yield Step(int(found[1]), columns.index(found.start(2)), found[2])


def foot_of(text):
    """What stands behind the rows of a story and the steps between them."""
    lines = text.split("\n")[1:-1]
    return [line for line in lines if not re.match(r"\d+ |     \(\d+ steps?\)$", line)]


def wrapped(line):
    """A line of the foot as lines that end on the page: at the first blank behind 90 characters, and behind 110 anyway."""
    found = ""
    for character in line:
        if character == " " and len(found) >= WIDE:
            yield found
            found = ""
            continue
        if len(found) >= WIDEST:
            yield found
            found = ""
        found += character if character in "\u2190\u2192" or character < "\x80" else "?"
    yield found


def reads_from(steps, i, j):
    between = {at for step in steps[i + 1:j] if step.writes for at in step.bytes}
    return i < j and steps[i].writes and steps[j].reads and bool(set(steps[i].bytes) & set(steps[j].bytes) - between)


def is_overwritten(steps, i):
    if not steps[i].writes:
        return False
    firsts = [next((s for s in steps[i + 1:] if at in s.bytes), None) for at in steps[i].bytes]
    return all(s is not None and s.writes and not s.reads for s in firsts)


def is_stuck(steps, i):
    return not steps[i].ends and all(step.hart != steps[i].hart for step in steps[i + 1:])


def left(hart):
    return LEFT + LANE * hart


def top(i):
    return TOP + ROW * i


def arrow(steps, i, j):
    a, b = steps[i].hart, steps[j].hart
    y, to_y = top(i) + 18, top(j) + 6
    if a == b:
        x = left(a) + BOX
        far = x + 20 + 4 * min(j - i, 10)
        way = f"M{x} {y}C{far} {y} {far} {to_y} {x} {to_y}"
    elif a < b:
        x, to_x = left(a) + BOX, left(b)
        way = f"M{x} {y}C{x + 60} {y} {to_x - 60} {to_y} {to_x} {to_y}"
    else:
        x, to_x = left(a), left(b) + BOX
        way = f"M{x} {y}C{x - 60} {y} {to_x + 60} {to_y} {to_x} {to_y}"
    return f'<path class="arrow" marker-end="url(#point)" d="{way}"/>\n'


def beside(step, look):
    """The classes and the words of what stands beside a box."""
    if step.note:
        return "mark fault-is" if "fault" in look else "mark", step.note
    word = {("over", "stuck"): "overwritten, stuck", ("over",): "overwritten", ("stuck",): "stuck here"}.get(tuple(look))
    return "mark stuck-is" if "stuck" in look else "mark over-is", word


def row(steps, i, found):
    step, base = steps[i], top(i) + 16
    faults = [k for k, step in enumerate(steps) if step.fault]
    looks = {"over": is_overwritten(steps, i), "stuck": found and is_stuck(steps, i), "fault": faults[-1:] == [i]}
    look = [name for name, holds in looks.items() if holds]
    x, kind = left(step.hart), " ".join([step.kind(), *look])
    words = escape(step.text).replace("&gt;", ">")
    yield f'<text class="count" x="46" y="{base}">{step.number}</text>\n'
    yield f'<rect class="{kind}" x="{x}" y="{top(i)}" width="{BOX}" height="{HEIGHT}" rx="4"/>\n'
    yield f'<svg x="{x}" y="{top(i)}" width="{BOX - 4}" height="{HEIGHT}"><text x="8" y="16">{words}</text></svg>\n'
    kind, word = beside(step, look)
    if word:
        yield f'<text class="{kind}" x="{x + BOX + 14}" y="{base}">{word}</text>\n'


def foot_text(lines, y):
    """The foot: behind the last line one more begins, which is empty."""
    begin = f'<tspan x="16" dy="{FOOT}">'
    drawn = "".join(f"{begin}{escape(line).replace('&gt;', '>')}</tspan>\n" for line in lines)
    return f'<text class="foot" y="{y}">{drawn}{begin}</tspan></text>\n' if lines else ""


def picture(steps, harts, theme, found, foot):
    """The file, without the titles of rows, which say what no text of a story does."""
    lines = [part for line in foot for part in wrapped(line)] if found else []
    width, end = left(harts) + BESIDE, top(len(steps)) + 12
    height = end + (FOOT * (len(lines) + 1) if lines else 0)
    yield f'<svg xmlns="http://www.w3.org/2000/svg" width="{width}" height="{height}" viewBox="0 0 {width} {height}">\n'
    yield "<title>The story of an order of harts</title>\n<style>\n" + LIGHT
    yield {"light": "", "dark": DARK, "auto": "@media (prefers-color-scheme:dark){\n" + DARK + "}\n"}[theme]
    yield LEGEND
    for hart in range(harts):
        middle = left(hart) + BOX // 2
        yield f'<path class="lane" d="M{middle} 104V{end - 8}"/>\n'
        yield f'<text class="name" x="{middle}" y="96">hart {hart}</text>\n'
    for j in range(len(steps)):
        for i in range(j):
            if reads_from(steps, i, j):
                yield arrow(steps, i, j)
    for i in range(len(steps)):
        yield from row(steps, i, found)
    yield foot_text(lines, end)
    yield "</svg>\n"


def main():
    harts, theme = int(sys.argv[1]), sys.argv[2] if len(sys.argv) > 2 else "auto"
    text = sys.stdin.read()
    sys.stdout.write("".join(picture(list(read(text)), harts, theme, sys.argv[3:] == ["found"], foot_of(text))))


if __name__ == "__main__":
    main()
