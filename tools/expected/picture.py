"""What a picture of `smtsim chart --svg FILE` shows, read from its file by what docs/FORMATS.md says of it.

    picture.py FILE

Prints the three lines over its legend; each hart with its colour and its mark; each band that has a row as a chart in text, with
the look of each bar in brackets (`<` and `>` where it is open), and the rings and arrows in it; and the titles of the rows, each
once. chart_picture.py prints what has to stand there. What lies outside of the page or of its place is named, and so is a mark of
which the legend says nothing.
"""

import re
import sys
import xml.etree.ElementTree as xml

COLUMN, ROW, MARGIN, CHARACTER, STRIP = 12, 17, 12, 8, 20
SVG = "{http://www.w3.org/2000/svg}"
# A character of the picture's letters is no wider than this.
WIDEST = 7.3


def number(element, key):
    return int(element.get(key))


def classes(element):
    return (element.get("class") or "").split()


def points(path):
    """The points of a path of straight lines, each a list."""
    at, found = [0, 0], []
    for letter, said in re.findall(r"([MHVhlz])([-0-9 ]*)", path):
        values = [int(value) for value in said.split()]
        if letter in "Ml":
            at = values if letter == "M" else [a + b for a, b in zip(at, values)]
        elif letter in "Hh":
            at = [values[0] + (at[0] if letter == "h" else 0), at[1]]
        elif letter == "V":
            at = [at[0], values[0]]
        found.append(at)
    return found


class Style:
    """The colours of harts on a light page."""

    def __init__(self, text):
        light = text.split("@media")[0]
        self.rules = [(names.split(","), body) for names, body in re.findall(r"^([^{\n]*)\{([^}]*)\}", light, re.M)]

    def fill(self, name):
        """What the first rule says that speaks of the class."""
        said = [re.search(r"(?:^|;)fill:([^;]*)", body) for names, body in self.rules if f".{name}" in names]
        return next(it[1] for it in said if it)


class Picture:
    def __init__(self, name):
        self.top = xml.parse(name).getroot()
        self.style = Style(self.top.find(f"{SVG}style").text)
        self.width, self.height = number(self.top, "width"), number(self.top, "height")
        self.wrong = []
        if self.top.get("viewBox") != f"0 0 {self.width} {self.height}":
            self.wrong.append(f"view box {self.top.get('viewBox')}")
        self.legend_group = next(group for group in self.top.findall(f"{SVG}g") if classes(group) == ["legend"])
        groups = [group for group in self.top.findall(f"{SVG}g") if group is not self.legend_group]
        self.groups = [group for group in groups if group.find(f"{SVG}title") is not None]
        self.strips = [group for group in groups if group.find(f"{SVG}title") is None]
        names = {len(self.name_of(group).text) for group in self.groups}
        self.left = MARGIN + CHARACTER * max(names, default=0)
        if len(names) > 1:
            self.wrong.append(f"names of {sorted(names)} characters")

    def name_of(self, group):
        return group.find(f"{SVG}text")

    def told(self, group):
        """The number of a row."""
        return int(re.match(r"number (\d+) ", group.find(f"{SVG}title").text)[1])

    def column(self, x):
        """The column whose left edge is there."""
        if (x - self.left) % COLUMN:
            self.wrong.append(f"no edge of a column at {x}")
        return (x - self.left) // COLUMN

    # ---- What stands over the bands

    def look_inside(self):
        """Names what isn't wholly on the page."""
        shift = int(re.search(r"translate\(0 (\d+)\)", self.legend_group.get("transform"))[1])
        for group in self.top.iter():
            for element in group:
                self.look_at(element, shift if group is self.legend_group else 0)

    def look_at(self, element, shift):
        if element.tag == f"{SVG}marker" or element.tag == f"{SVG}tspan" or classes(element) in (["page"], ["point"]):
            return
        x, y = (int(element.get(key, 0)) for key in ("x", "y"))
        right, low = x, y
        if element.tag == f"{SVG}text":
            wide = 1.25 if classes(element) == ["head"] else 1
            right = x + wide * WIDEST * len("".join(element.itertext()).rstrip())
        elif element.tag == f"{SVG}rect":
            right, low = x + number(element, "width"), y + number(element, "height")
        elif element.tag == f"{SVG}line":
            right, low = number(element, "x2"), number(element, "y2")
        elif element.tag == f"{SVG}path" and classes(element) != ["level"]:
            right, low = (max(point[k] for point in points(element.get("d"))) for k in (0, 1))
        if right > self.width or low + shift > self.height:
            self.wrong.append(f"outside of the page: {element.attrib} {(element.text or '').strip()}")

    def heading(self):
        texts = [text for text in self.top.findall(f"{SVG}text")][:3]
        if [classes(text) for text in texts] != [["head"], [], ["far"]]:
            self.wrong.append("heading")
        title = self.top.find(f"{SVG}title").text
        if title != f"{texts[0].text}: {texts[1].text}":
            self.wrong.append(f"title {title}")
        return [text.text for text in texts]

    def look(self, names):
        hart = next(name for name in names if re.fullmatch(r"h\d+", name))
        return self.style.fill(hart)

    def legend(self):
        """Each hart's box and the name behind it, none over another."""
        boxes = self.top.findall(f"{SVG}rect")[1:]
        names = [text for text in self.top.findall(f"{SVG}text") if not classes(text) and (text.text or "").startswith("hart ")]
        notches = {classes(path)[0]: points(path.get("d"))[0] for path in self.top.findall(f"{SVG}path") if classes(path)[0][0] == "k"}
        free, last = MARGIN, None
        for box, name in zip(boxes, names, strict=True):
            x, y, behind = number(box, "x"), number(box, "y"), number(name, "x")
            free = MARGIN if y != last else free
            if not (free <= x and x + number(box, "width") < behind and number(name, "y") > y):
                self.wrong.append(f"legend of {name.text} at {x}")
            free, last = behind + WIDEST * len(name.text), y
            mark = notches.get(f"k{name.text[5:]}")
            if mark not in (None, [x, y]):
                self.wrong.append(f"mark of {name.text} at {mark}")
            yield f"{name.text} {self.look(classes(box))}{'' if mark is None else ' marked'}"

    def look_for_marks(self):
        """Names a mark of which the legend says nothing, and words of it that lie over each other."""
        shown = {text.text for text in self.legend_group.iter(f"{SVG}tspan")}
        looks = {tuple(name for name in classes(it) if not re.fullmatch(r"[ehk](\d+|any)|any", name))
                 for it in self.legend_group.iter() if it.tag in (f"{SVG}rect", f"{SVG}path", f"{SVG}circle")}
        for group in self.groups:
            letters = {text.text for text in group.findall(f"{SVG}text") if text.get("text-anchor") == "middle"}
            self.wrong += [f"no {letter} in the legend" for letter in letters - shown]
            for it in group:
                kind = tuple(name for name in classes(it) if not re.fullmatch(r"[ehk]\d+", name))
                if it.tag in (f"{SVG}rect", f"{SVG}path", f"{SVG}circle") and kind and kind not in looks:
                    self.wrong.append(f"no {kind} in the legend")
        ends = {}
        for text in self.legend_group.findall(f"{SVG}text"):
            x, y = number(text, "x"), number(text, "y")
            if text.get("text-anchor") != "middle":
                if x < ends.get(y, 0):
                    self.wrong.append(f"over each other: {''.join(text.itertext())}")
                ends[y] = x + WIDEST * len("".join(text.itertext()))

    # ---- The rows

    def bar(self, group, base):
        """The columns of the bar of a row, and its look."""
        bars, edges = group.findall(f"{SVG}rect"), [path for path in group.findall(f"{SVG}path") if "edge" in classes(path)]
        if not bars:
            return {}, ""
        (bar,), (edge,) = bars, edges
        x, y, width, height = (number(bar, key) for key in ("x", "y", "width", "height"))
        if not y < base < y + height <= y + ROW:
            self.wrong.append(f"bar at {y} of a row at {base}")
        at = points(edge.get("d"))
        least, most = min(p[0] for p in at), max(p[0] for p in at)
        upright = {a[0] for a, b in zip(at, at[1:]) if a[0] == b[0]}
        is_closed = edge.get("d").endswith("z")
        before, behind = least < x, most > x + width
        sides = {side for side, is_open in ((x, before), (x + width, behind)) if not is_open}
        if {p[1] for p in at} != {y, y + height} or (upright | ({x} if is_closed else set())) != sides:
            self.wrong.append(f"edges {edge.get('d')} of a bar at {x}, {y}")
        if ("pale" in classes(bar)) != ("dashed" in classes(edge)):
            self.wrong.append(f"pale or dashed at {x}, {y}")
        notches = [points(path.get("d"))[0] for path in group.findall(f"{SVG}path") if classes(path)[0][0] == "k"]
        if notches not in ([], [[x, y]]):
            self.wrong.append(f"marks {notches} of a bar at {x}, {y}")
        if int(classes(bar)[-1][1:]) != int(classes(edge)[-1][1:]):
            self.wrong.append(f"edge of another hart at {x}, {y}")
        first = self.column(x)
        pale, mark = " pale" if "pale" in classes(bar) else "", " marked" if notches else ""
        look = f" [{'<' if before else ''}{self.look(classes(bar))}{mark}{pale}{'>' if behind else ''}]"
        return {first + k: "." for k in range(width // COLUMN)}, look

    def row(self, group):
        """A row in text: letters, dots where the bar is and no letter, what stands behind, and the look of the bar."""
        name = self.name_of(group)
        base = number(name, "y")
        cells, look = self.bar(group, base)
        behind = []
        for letter in group.findall(f"{SVG}text")[1:]:
            x = number(letter, "x")
            if number(letter, "y") != base:
                self.wrong.append(f"{letter.text} of {name.text} at {letter.get('y')}")
            if letter.get("text-anchor") == "middle":
                cells[self.column(x - COLUMN // 2)] = letter.text
                if (letter.get("class") == "x") != (letter.text == "x"):
                    self.wrong.append(f"class of {letter.text} of {name.text}")
            else:
                behind.append((x, letter.text, letter.get("class")))
        end = max(cells, default=-1) + 1
        text, free = "".join(cells.get(k, " ") for k in range(end)), self.left + COLUMN * end
        for x, said, kind in behind:
            if not free <= x <= free + 3 * COLUMN or kind != "x":
                self.wrong.append(f"{said} of {name.text} at {x}, behind {free}")
            free = x + WIDEST * len(said)
            # It begins right behind a column, in which there may be nothing.
            text = f"{text:<{(x - self.left) // COLUMN if (x - self.left) % COLUMN == 4 else 0}} {said}"
        return name.text + text + look

    def rings(self, group):
        """The rings of a row, each at a retirement."""
        name = self.name_of(group)
        retired = [number(text, "x") for text in group.findall(f"{SVG}text") if text.text == "T"]
        for ring in group.findall(f"{SVG}circle"):
            if [number(ring, "cx")] != retired or number(ring, "cy") != number(name, "y") - 4:
                self.wrong.append(f"ring of {name.text}")
            yield f"ring {ring.get('class')} {self.told(group)} at ", number(ring, "cx") - COLUMN // 2

    def retirement(self, rows, y):
        """The row in whose middle this height is, and the middle of its retirement."""
        group = next((group for group in rows if number(self.name_of(group), "y") == y + 4), None)
        if group is None:
            self.wrong.append(f"no row at {y}")
            return 0, 0
        return self.told(group), next(number(text, "x") for text in group.findall(f"{SVG}text") if text.text == "T")

    def arrow(self, rows, path):
        """Where an arrow leads, with the edges of the columns at both ends."""
        at, has_point = points(path.get("d")), path.get("marker-end") == "url(#point)"
        if len(at) == 3 and has_point:
            store, left = self.retirement(rows, at[0][1])
            side = at[2][1] - at[0][1]
            load, ring = self.retirement(rows, at[2][1] + (-5 if side < 0 else 5))
            if at[2][0] != ring - COLUMN // 2 or at[0][0] != min(left + COLUMN // 2, at[2][0]):
                self.wrong.append(f"arrow {path.get('d')}")
            return f"arrow from {store} at ", left - COLUMN // 2, f" to {load} at ", ring - COLUMN // 2
        if len(at) == 2 and not has_point:
            store, left = self.retirement(rows, at[0][1])
            if at[0][0] != left + COLUMN // 2:
                self.wrong.append(f"line {path.get('d')}")
            return f"arrow from {store} at ", left - COLUMN // 2, " to behind", None
        load, ring = self.retirement(rows, at[0][1])
        if at[1][0] != ring + 8:
            self.wrong.append(f"arrow {path.get('d')}")
        return "arrow from before to " + f"{load} at ", ring - COLUMN // 2, "", None

    # ---- The bands

    def ruler(self, numbers):
        """The numbers over a band in text; below each is a line at the same edge."""
        room = (self.left - MARGIN) // CHARACTER
        line = " " * room
        for x, said in numbers:
            line = line.ljust(room + self.column(x)) + said
        return line

    def parts(self):
        """What belongs to each band that has rows: the rows, the numbers over it with their lines, the arrows."""
        tops = []
        for group in self.groups:
            base = number(self.name_of(group), "y")
            if not tops or base != tops[-1][-1][0] + ROW:
                tops.append([])
            tops[-1].append((base, group))
        for rows in tops:
            first, last = rows[0][0], rows[-1][0]
            over = [text for text in self.top.findall(f"{SVG}text") if classes(text) == ["far"] and first - 2 * ROW < number(text, "y") < first - ROW + 5]
            lines = [line for line in self.top.findall(f"{SVG}line") if first - 3 * ROW < number(line, "y1") < first]
            arrows = [path for path in self.top.iter(f"{SVG}path") if classes(path) == ["arrow"] and first - ROW < points(path.get("d"))[0][1] < last
                      and path not in list(self.legend_group)]
            arrows += [path for _, group in rows for path in group.findall(f"{SVG}path") if classes(path) == ["arrow"] and path not in arrows]
            yield [group for _, group in rows], over, lines, arrows, first, last

    def bands(self):
        """The lines of the bands. The first column of each is known by the number over one, or by its letters."""
        start = None
        for rows, over, grids, arrows, first, last in self.parts():
            if [number(text, "x") for text in over] != [number(grid, "x1") for grid in grids]:
                self.wrong.append(f"lines aren't at the numbers over {first}")
            for grid in grids:
                upright = grid.get("x1") == grid.get("x2")
                if not (upright and number(grid, "y1") < first - ROW and last < number(grid, "y2") <= last + ROW // 2):
                    self.wrong.append(f"line {grid.attrib}")
            yield self.ruler([(number(text, "x"), text.text) for text in over]).rstrip()
            yield from (self.row(group) for group in rows)
            for group in rows:
                yield from ((said, self.column(x)) for said, x in self.rings(group))
            for path in arrows:
                said, x, more, other = self.arrow(rows, path)
                yield said, self.column(x), more, None if other is None else self.column(other)
            yield from self.strips_below(last)
            yield ""

    def strips_below(self, last):
        """The strips right below a band whose last row has this base."""
        base = last + STRIP + 1
        for strip in self.strips:
            name = strip.find(f"{SVG}text")
            if number(name, "y") == base:
                yield self.strip(strip, name.text, base)
                base += STRIP

    def strip(self, strip, name, base):
        """The heights of a strip from its first column on; or its letters, a dot where there is none."""
        level = strip.find(f"{SVG}path")
        if level is None:
            cells = {self.column(number(text, "x") - COLUMN // 2): text.text for text in strip.findall(f"{SVG}text")[1:]}
            return f"{name}: {''.join(cells.get(k, '.') for k in range(max(cells, default=-1) + 1))}"
        line, behind = strip.find(f"{SVG}line"), strip.findall(f"{SVG}text")[1]
        left, right = number(line, "x1"), number(line, "x2")
        at = points(level.get("d"))
        if at[0] != [left, base] or [number(line, "y1"), number(line, "y2")] != [base, base] or left != self.left:
            self.wrong.append(f"strip of {name} at {at[0]}")
        if at[-2] != [right, base] or number(behind, "x") < right:
            self.wrong.append(f"strip of {name} ends at {at[-2]}")
        heights = [base - point[1] for point in at[2:-2:2]]
        if [point[0] for point in at[2:-2:2]] != [left + COLUMN * (k + 1) for k in range(len(heights))]:
            self.wrong.append(f"columns of the strip of {name}")
        return f"{name}, {behind.text}: {' '.join(map(str, heights))}"

    def titles(self):
        said = {}
        for group in self.groups:
            text = group.find(f"{SVG}title").text
            if said.setdefault(self.told(group), text) != text:
                self.wrong.append(f"other title of number {self.told(group)}")
        return [said[told] for told in sorted(said)]


def lines_of(name):
    it = Picture(name)
    it.look_inside()
    it.look_for_marks()
    lines = [*it.heading(), *it.legend()]
    for line in it.bands():
        if isinstance(line, str):
            lines.append(line.rstrip())
        else:
            lines.append("".join("" if part is None else str(part) for part in line))
    lines += it.titles()
    return lines + [f"WRONG: {said}" for said in it.wrong]


if __name__ == "__main__":
    sys.stdout.writelines(f"{line}\n" for line in lines_of(sys.argv[1]))
