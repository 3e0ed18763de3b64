#!/usr/bin/env python3
"""Makes a program that costs nearly what the proved one does, of the sources as they stand, in some four minutes: tools/cost_program.py OUT

The quick program (quick_program.py) tests each range and each `prove!` as it runs, and puts no function in line because the code says so: what
an event costs there says little. Here the tests are taken out of its module, as if all had been proved, and each function is marked as its
`#[inline(..)]` asks. It is for measuring alone (bench): what a test would have stopped is undefined. Compare two such programs, one of the
sources before a change and one of those behind it; the last word has the proved program, since LLVM puts other calls in line there.
"""

import glob
import re
import shutil
import subprocess
import sys
import tempfile

import quick_program
from crate_list import ROOT, kit

# What the attributes of Rust are to LLVM.
ASKED = {"always": "alwaysinline", "never": "noinline", "": "inlinehint"}
ATTRIBUTE = re.compile(r"#\[inline(?:\((always|never)\))?\]\s*\n(?:\s*(?:#\[.*\]|//.*)\n)*\s*(?:pub(?:\([a-z: _]*\))? )?fn (\w+)")
FUNCTION = re.compile(r'^(define internal [^\n]*?@"([a-z_]+)::[^"]*")(\([^\n]*?\))( #\d+ \{)$', re.MULTILINE)
TRAP = "  call void @llvm.trap()\n"
SANITIZED = " sanitize_address"


def asked_of(crate):
    """How each function of a crate wants to be put in line, by its name."""
    asked = {}
    for file in glob.glob(f"{ROOT}/crates/{crate}/src/**/*.rt", recursive=True):
        with open(file, encoding="utf-8") as it:
            asked.update((name, ASKED[how]) for how, name in ATTRIBUTE.findall(it.read()))
    return asked


def unchecked(text):
    """The module without its tests, each function marked as its crate asks. A test that fails traps, and what can't be reached is left to LLVM."""
    crates = {}

    def marked(found):
        head, crate, arguments, end = found.groups()
        name = re.sub(r"::<.*$", "", head.rstrip('"')).rpartition("::")[2]
        if crate not in crates:
            crates[crate] = asked_of(crate)
        how = crates[crate].get(name)
        return f"{head}{arguments} {how}{end}" if how else found.group(0)

    return FUNCTION.sub(marked, text.replace(TRAP, "").replace(SANITIZED, ""))


def make(room, out):
    here = kit()
    module = quick_program.translate(room, here)
    readable = f"{room}/module.ll"
    quick_program.call([f"{here}/toolchain/bin/clang", "-S", "-emit-llvm", "-x", "ir", module, "-o", readable, "-O0"])
    with open(readable, encoding="utf-8") as it:
        text = it.read()
    with open(readable, "w", encoding="utf-8") as it:
        it.write(unchecked(text))
    quick_program.build(readable, 2, out, here)


def main():
    if len(sys.argv) != 2 or sys.argv[1].startswith("-"):
        print("usage: tools/cost_program.py OUT", file=sys.stderr)
        return 2
    room = tempfile.mkdtemp(prefix="cost-")
    try:
        make(room, sys.argv[1])
    except (quick_program.Failed, OSError, subprocess.CalledProcessError) as failed:
        print(f"smtsim: no program could be made:\n{failed}", file=sys.stderr)
        return 1
    finally:
        shutil.rmtree(room, ignore_errors=True)
    return 0


if __name__ == "__main__":
    sys.exit(main())
