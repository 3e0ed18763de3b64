#!/usr/bin/env python3
"""check_edits.py [--gate]: whether each wrong body of crates/*/must-fail and tools/edits/* still applies to its file.

An edit's lines are `file: PATH` and then pairs of `old: TEXT` and `new: TEXT`. Each old text stands in the file exactly once, in
what the pairs before have made. It also holds the gate's edits against the most that there may be. With --gate its last line is
that of a gate.
"""
import glob
import os
import sys

from crate_list import ROOT

# The most edits that the gate tries, so that it stays within its time (docs/GATE.md).
MOST = 160


def fault(path, crate):
    """Why an edit doesn't apply, or none."""
    texts, file, old = {}, None, None
    with open(path, encoding="utf-8") as edit:
        for line in edit.read().split("\n"):
            key, _, text = line.partition(": ")
            if key == "file":
                file = os.path.join(ROOT, "crates", crate, text)
                if not os.path.exists(file):
                    return f"there is no {text}"
                texts.setdefault(file, open(file, encoding="utf-8").read())
            elif key == "old":
                old = text
            elif key == "new":
                if file is None or old is None:
                    return "a new text without its old one"
                count = texts[file].count(old)
                if count != 1:
                    return f"its old text stands {count} times: {old.strip()}"
                if text == old:
                    return f"it changes nothing: {old.strip()}"
                texts[file] = texts[file].replace(old, text)
                old = None
    return None if texts else "it names no file"


def main(words):
    wrong, count = [], {"crates/*/must-fail": 0, "tools/edits/*": 0}
    for folder in count:
        for path in sorted(glob.glob(os.path.join(ROOT, folder, "*.edit"))):
            count[folder] += 1
            parts = os.path.relpath(path, ROOT).split(os.sep)
            crate = parts[1] if parts[0] == "crates" else parts[2]
            why = fault(path, crate)
            if why:
                wrong.append(f"{os.path.relpath(path, ROOT)}: {why}")
    in_gate, beside = count.values()
    if in_gate > MOST:
        wrong.append(f"the gate has {in_gate} edits, and may have {MOST}")
    for line in wrong:
        print(line)
    print(f"{in_gate} edits in the gate, {beside} in tools/edits, {len(wrong)} faults")
    if words == ["--gate"]:
        print(f"0 passed, {len(wrong)} failed" if wrong else "1 passed, 0 failed")
    return 1 if wrong else 0


if __name__ == "__main__":
    sys.exit(main(sys.argv[1:]))
