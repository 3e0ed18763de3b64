#!/usr/bin/env python3
"""What a picture of `smtsim litmus TEST --svg FILE` has, as lines: litmus_picture.py FILE

The title; the harts and the boxes of events with their columns and rows, which are counted by where they stand; the
boxes of what is there at the start and at the end; and each arrow by the two boxes at whose edges its ends are, once
for each time that it is drawn. An end at no box, a part of an arrow that goes through a box, a name that stands over a
text, a box or another name, a name that is on no arrow of its relation or in the colour of another, a text that is
longer than its box, and what lies outside of the page are told. It reads the drawing, and knows no test.
"""

import re
import sys
import xml.etree.ElementTree as xml
from collections import Counter

SVG = "{http://www.w3.org/2000/svg}"
# A letter of the pictures' 12px monospace, at the most, and how far a line of text reaches above and below its base.
LETTER, ABOVE, BELOW = 7.25, 10, 3


class Area:
    """A rectangle of the page."""

    def __init__(self, left, top, right, bottom):
        self.left, self.top, self.right, self.bottom = left, top, right, bottom

    def has(self, x, y):
        return self.left <= x <= self.right and self.top <= y <= self.bottom

    def meets(self, other):
        return (self.left < other.right and other.left < self.right
                and self.top < other.bottom and other.top < self.bottom)

    def is_inside(self, other):
        return (other.left <= self.left and self.right <= other.right
                and other.top <= self.top and self.bottom <= other.bottom)


class Box(Area):
    def __init__(self, rect):
        left, top = float(rect.get("x")), float(rect.get("y"))
        super().__init__(left, top, left + float(rect.get("width")), top + float(rect.get("height")))
        self.kind = rect.get("class")
        self.texts = []

    def is_at_edge(self, x, y):
        return self.has(x, y) and (x in (self.left, self.right) or y in (self.top, self.bottom))

    def name(self):
        return self.texts[0].split(":")[0] if self.kind == "box" else self.kind


class Text(Area):
    def __init__(self, element):
        self.kinds = (element.get("class") or "").split()
        self.x, self.y, self.text = float(element.get("x")), float(element.get("y")), element.text or ""
        width = LETTER * len(self.text)
        left = self.x - width / 2 if self.is_name() else self.x
        super().__init__(left, self.y - ABOVE, left + width, self.y + BELOW)

    def is_name(self):
        return "mark" in self.kinds


class Arrow:
    def __init__(self, path):
        self.kinds = path.get("class").split()
        self.relation, self.point = self.kinds[-1], path.get("marker-end")
        self.points = points_of(path.get("d"))

    def parts(self):
        for (x, y), (to_x, to_y) in zip(self.points, self.points[1:]):
            yield Area(min(x, to_x), min(y, to_y), max(x, to_x), max(y, to_y))


def points_of(way):
    """The points of a way of straight parts: H and V keep one of the two numbers of the point before."""
    points = []
    for command, numbers in re.findall(r"([A-Za-z])([^A-Za-z]*)", way):
        numbers = [float(n) for n in numbers.split()]
        if command == "H":
            points.append((numbers[0], points[-1][1]))
        elif command == "V":
            points.append((points[-1][0], numbers[0]))
        else:
            points.append(tuple(numbers[-2:]))
    return points


def box_at(boxes, point):
    return next((box.name() for box in boxes if box.is_at_edge(*point)), f"nothing at {point[0]:g} {point[1]:g}")


def told(root):
    boxes = [Box(rect) for rect in root.iter(f"{SVG}rect") if rect.get("class") in ("box", "start", "end")]
    texts = [Text(text) for text in root.iter(f"{SVG}text")]
    for text in texts:
        box = next((box for box in boxes if box.has(text.x, text.y)), None)
        if box is not None and not text.is_name():
            box.texts.append(text.text)
    events = [box for box in boxes if box.kind == "box"]
    harts = sorted((text.x, text.text) for text in texts if "hart" in text.kinds)
    columns, rows = [x for x, _ in harts], sorted({box.top for box in events})
    yield f"title {root.find(f'{SVG}title').text}"
    yield from (f"{text} in column {columns.index(x)}" for x, text in harts)
    yield from (" ".join(box.texts) for box in boxes if box.kind != "box")
    for box in events:
        name, _, text = box.texts[0].partition(": ")
        place = f"column {columns.index(box.left)}, row {rows.index(box.top)}"
        yield f"box {name} in {place}: {text} | {' '.join(box.texts[1:])}"
    paths = [path for path in root.iter(f"{SVG}path") if path.get("marker-end") is not None]
    arrows = [Arrow(path) for path in paths]
    yield from sorted(arrows_told(arrows, boxes))
    yield from faults(root, arrows, boxes, texts)


def arrows_told(arrows, boxes):
    for arrow in arrows:
        begin, end = (box_at(boxes, point) for point in (arrow.points[0], arrow.points[-1]))
        relation = arrow.relation
        if arrow.point != f"url(#to-{relation})":
            relation += f" with the point of {arrow.point}"
        yield f"arrow {begin} {relation} {end}" + (", thick" if "thick" in arrow.kinds else "")


def faults(root, arrows, boxes, texts):
    names = [text for text in texts if text.is_name()]
    yield from through(arrows, boxes)
    yield from named(arrows, names)
    yield from covered(names, boxes, texts)
    yield from outside(root, boxes, texts)


def through(arrows, boxes):
    for arrow in arrows:
        for box in boxes:
            if any(part.left < box.right and box.left < part.right and part.top < box.bottom and box.top < part.bottom
                   for part in arrow.parts()):
                yield f"{arrow.relation} through {box.name()}"


def named(arrows, names):
    """Names in the colour of another relation or on no arrow of it; relations with more arrows than names, or fewer."""
    for name in names:
        if name.kinds != ["mark", f"{name.text}-is"]:
            yield f"name {name.text} in the colour of {' '.join(name.kinds)}"
        if not any(arrow.relation == name.text and part.has(name.x, name.y - 4)
                   for arrow in arrows for part in arrow.parts()):
            yield f"name {name.text} on no arrow"
    lines, words = Counter(arrow.relation for arrow in arrows), Counter(name.text for name in names)
    for relation in sorted(lines | words):
        if lines[relation] != words[relation]:
            yield f"{relation}: {lines[relation]} arrows, {words[relation]} names"


def covered(names, boxes, texts):
    for name in names:
        yield from (f"name {name.text} over {box.name()}" for box in boxes if name.meets(box))
        yield from (f"name {name.text} over {text.text}" for text in texts if text is not name and name.meets(text))


def outside(root, boxes, texts):
    """Boxes and texts that don't lie within the page, and texts that don't lie within their box."""
    page = Area(0, 0, float(root.get("width")), float(root.get("height")))
    yield from (f"{box.name()} outside of the page" for box in boxes if not box.is_inside(page))
    yield from (f"{text.text} outside of the page" for text in texts if not text.is_inside(page))
    for text in texts:
        box = next((box for box in boxes if box.has(text.x, text.y) and not text.is_name()), None)
        if box is not None and not text.is_inside(box):
            yield f"{text.text} outside of its box"


def main(words):
    for line in told(xml.parse(words[0]).getroot()):
        print(line)


if __name__ == "__main__":
    main(sys.argv[1:])
