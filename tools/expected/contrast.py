"""How the colours of a picture of `smtsim chart --svg FILE` stand out, from its file alone.

    contrast.py FILE

For each scheme that the file has (light, and dark where it has rules for it) prints the lowest contrast of: the edges of bars
against the page; letters against what they stand on, a bar over the page or the page; and rings, arrows and the marks of harts
against the bars and the page. The formula is that of W3C, "Web Content Accessibility Guidelines 2.1", under "relative luminance"
and "contrast ratio"; 1.4.3 wants 4.5 of letters, 1.4.11 wants 3 of what else has to be seen. What has less is named.
"""

import re
import sys
import xml.etree.ElementTree as xml

SVG = "{http://www.w3.org/2000/svg}"
WANTED = {"edges": 3, "letters": 4.5, "marks": 3}


def rules_of(text):
    """The properties of each class, and of `text`, as the rules say from the first to the last."""
    rules = {}
    for names, body in re.findall(r"^([^{\n@]*)\{([^}]*)\}", text, re.M):
        said = dict(one.split(":", 1) for one in body.split(";") if one)
        for name in names.split(","):
            rules.setdefault(name, {}).update(said)
    return rules


def schemes_of(text):
    light, _, dark = text.partition("@media (prefers-color-scheme:dark){\n")
    yield "light" if "#ffffff" in re.findall(r"\.page\{fill:(.*?)\}", light)[-1] else "dark", rules_of(light)
    if dark:
        yield "dark", rules_of(light + dark)


def numbers_of(colour):
    return [int(colour[k : k + 2], 16) / 255 for k in (1, 3, 5)]


def over(colour, opacity, below):
    return [opacity * a + (1 - opacity) * b for a, b in zip(colour, below)]


def luminance(colour):
    linear = [c / 12.92 if c <= 0.03928 else ((c + 0.055) / 1.055) ** 2.4 for c in colour]
    return sum(weight * c for weight, c in zip((0.2126, 0.7152, 0.0722), linear))


def contrast(one, other):
    low, high = sorted((luminance(one), luminance(other)))
    return (high + 0.05) / (low + 0.05)


class Scheme:
    def __init__(self, rules, top):
        self.rules, self.top, self.lowest, self.wrong = rules, top, {}, []
        self.page = numbers_of(self.of(["page"], "fill"))

    def of(self, classes, key):
        found = [self.rules[f".{name}"][key] for name in classes if key in self.rules.get(f".{name}", {})]
        return found[-1] if found else None

    def bar(self, rect):
        classes = rect.get("class").split()
        return over(numbers_of(self.of(classes, "fill")), float(self.of(classes, "fill-opacity")), self.page)

    def letter(self, classes):
        return numbers_of(self.of(classes, "fill") or self.rules["text"]["fill"])

    def look(self, kind, colour, below, what):
        found = contrast(colour, below)
        self.lowest[kind] = min(found, self.lowest.get(kind, 99))
        if found < WANTED[kind]:
            self.wrong.append(f"{kind} {what} {found:.2f}")

    def look_at(self, bars, element):
        """An element that stands on one of these bars, or on the page."""
        classes = (element.get("class") or "").split()
        grounds = [self.page] + [self.bar(bar) for bar in bars if stands_on(element, bar)]
        if element.tag in (f"{SVG}text", f"{SVG}tspan"):
            self.look("letters", self.letter(classes), grounds[-1], element.text)
        elif "edge" in classes:
            self.look("edges", numbers_of(self.of(classes, "stroke")), self.page, classes)
        elif {"again", "same", "arrow"} & set(classes):
            for ground in grounds if element.tag == f"{SVG}circle" else [self.page, *map(self.bar, bars)]:
                self.look("marks", numbers_of(self.of(classes, "stroke")), ground, classes)
        elif any(re.fullmatch(r"k\d+", name) for name in classes):
            for bar in bars:
                if bar.get("class").split()[-1][1:] == classes[-1][1:]:
                    self.look("marks", numbers_of(self.of(classes, "fill")), self.bar(bar), classes)
            self.look("marks", numbers_of(self.of(classes, "fill")), self.page, classes)

    def judge(self):
        every = [rect for rect in self.top.iter(f"{SVG}rect") if rect.get("class") != "page"]
        for group in [self.top, *self.top.findall(f"{SVG}g")]:
            inside = list(group) if group is self.top else list(group.iter())[1:]
            bars = [rect for rect in inside if rect.tag == f"{SVG}rect" and rect.get("class") != "page"]
            for element in inside:
                self.look_at(every if element.get("class") == "arrow" else bars, element)


def stands_on(element, bar):
    x, y = (float(element.get(key) or element.get(f"c{key}") or -1) for key in "xy")
    left, top = (float(bar.get(key)) for key in "xy")
    return left <= x < left + float(bar.get("width")) and top <= y <= top + float(bar.get("height"))


def lines_of(name):
    top = xml.parse(name).getroot()
    for said, rules in schemes_of(top.find(f"{SVG}style").text):
        scheme = Scheme(rules, top)
        scheme.judge()
        yield f"{said}: " + ", ".join(f"{kind} {scheme.lowest[kind]:.2f}" for kind in WANTED if kind in scheme.lowest)
        yield from (f"WRONG: {said} {wrong}" for wrong in dict.fromkeys(scheme.wrong))


if __name__ == "__main__":
    sys.stdout.writelines(f"{line}\n" for line in lines_of(sys.argv[1]))
