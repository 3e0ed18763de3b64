#!/usr/bin/env python3
"""crates_page.py [--gate]: writes crates/README.md from crates.txt: its sections, and of each crate a line with what it is, which
is the first sentence of its root file. With --gate it writes nothing, and holds the page against what it would write; the last
line is that of a gate then.
"""
import os
import re
import sys
import textwrap

from crate_list import ROOT

PAGE = os.path.join(ROOT, "crates", "README.md")
HEAD = """# The crates

Made by `tools/crates_page.py` from crates.txt and the first sentence of each crate's root file. Crates stand above
those that use them; docs/ARCHITECTURE.md has the layers.
"""


def first_sentence(crate):
    """The first sentence of what a crate's root file says of it."""
    for name in ("lib.rt", "main.rt"):
        path = os.path.join(ROOT, "crates", crate, "src", name)
        if os.path.exists(path):
            break
    words = []
    with open(path, encoding="utf-8") as file:
        for line in file:
            text = line.rstrip("\n").removeprefix("//!").strip()
            if not line.startswith("//!") or not text:
                break
            words.append(text)
    text = re.sub(r" \([^()]*\)", "", " ".join(words))
    return re.split(r"(?<=[.]) |:$", text)[0].rstrip(".:")


def item(crate):
    """The lines of a crate, none above 120 columns."""
    return "".join(f"{line}\n" for line in textwrap.wrap(f"- `{crate}`: {first_sentence(crate)}", 118, subsequent_indent="  "))


def page():
    """The whole page."""
    parts = [HEAD]
    with open(os.path.join(ROOT, "crates.txt"), encoding="utf-8") as file:
        lines = file.read().split("\n")
    for line in lines[1:]:
        if line.startswith("#"):
            parts.append(f"\n## {line[1:].strip()}\n\n")
        elif line.strip():
            parts.append(item(line.split(":")[0].split()[0]))
    return "".join(parts)


def main(words):
    text = page()
    if words != ["--gate"]:
        with open(PAGE, "w", encoding="utf-8") as file:
            file.write(text)
        return 0
    is_right = os.path.exists(PAGE) and open(PAGE, encoding="utf-8").read() == text
    if not is_right:
        print("crates/README.md isn't what tools/crates_page.py makes of crates.txt: run it")
    print("1 passed, 0 failed" if is_right else "0 passed, 1 failed")
    return 0 if is_right else 1


if __name__ == "__main__":
    sys.exit(main(sys.argv[1:]))
