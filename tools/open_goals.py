#!/usr/bin/env python3
"""What is open in the proofs of a crate, in half a minute where its libraries stand.

    open_goals.py --take                 takes the libraries that `rt ci` has proved on this machine of the sources as they stand here
    open_goals.py --take CLONE           takes those that `rt ci` has left in that clone, also while it runs: where the kit's `rt` keeps none
    open_goals.py CRATE [FUNCTION ..]    checks the crate, or these of its functions (crate::module::function), past what is open;
                                         of a crate of tests its tests too
    open_goals.py --make CRATE           makes the library of a crate that was proved here, for a check of those above it

`rt check` proves the libraries below anew, although `rt ci` has, and looks at all sources of a large repository for most of a minute
before it begins. This calls the prover as `rt check` does, over what stands in each crate's out/, and over the sources of what
doesn't. It is for the time of writing: nothing
that it makes counts for the gate, and what the gate keeps is only read.
"""

import importlib.machinery
import importlib.util
import os
import shutil
import subprocess
import sys

from crate_list import ROOT, CrateList, kit


def command_of_kit():
    """The kit's command `rt`, as a module: it knows where what was proved is kept, and under which name."""
    folder = f"{kit()}/bin"
    sys.path.insert(0, folder)
    loader = importlib.machinery.SourceFileLoader("rt", f"{folder}/rt")
    module = importlib.util.module_from_spec(importlib.util.spec_from_loader("rt", loader))
    loader.exec_module(module)
    # As under `rt ci`, whose libraries hold statements alone.
    module.Crate.cuts_libraries = True
    module.Crate.allowed = module.handles_of(ROOT)
    # An entry that can't be taken stays there for those who can.
    if hasattr(module, "Kept"):
        module.Kept.drop = lambda self, path: None
    return module


def take_libraries():
    """Takes each library that is kept and whose own libraries stand here, lowest first. Says which."""
    os.chdir(ROOT)
    command = command_of_kit()
    if not hasattr(command, "Kept"):
        print("this kit's `rt ci` keeps nothing: name the clone in which it runs", file=sys.stderr)
        return 1
    crates = command.crates_of(ROOT)
    kept = command.Kept(crates)
    standing, taken = set(), []
    for crate in crates:
        if crate.is_program or crate.is_static or any(it.name not in standing for it in crate.below()):
            continue
        stamp = f"{crate.folder}/out/rlib/stamp"
        if not (os.path.isfile(stamp) and open(stamp, encoding="utf-8").read() == crate.stamp()):
            shutil.rmtree(f"{crate.folder}/out/rlib", ignore_errors=True)
            if not kept.give(crate, False, kept.key(crate)):
                continue
            with open(stamp, "w", encoding="utf-8") as it:
                it.write(crate.stamp())
            taken.append(crate.name)
        kept.is_built(crate)
        standing.add(crate.name)
    print(f"{len(taken)} taken, {len(standing)} stand: {' '.join(taken)}")
    return 0


def is_same(crate, clone):
    """Whether a crate's sources are those of the clone."""
    for part in ("src", "specs", "proofs"):
        here, there = (f"{folder}/crates/{crate}/{part}" for folder in (ROOT, clone))
        if os.path.isdir(here) != os.path.isdir(there):
            return False
        if os.path.isdir(here) and subprocess.run(["diff", "-rq", here, there], capture_output=True, check=False).returncode:
            return False
    return True


def take_from(clone):
    """Takes each library that stands in the clone, of sources that are the same here with all below them. Says which."""
    uses = CrateList().uses
    fits, taken = {}, []

    def can_take(crate):
        if crate not in fits:
            stands = os.path.isdir(f"{clone}/crates/{crate}/out/rlib/{crate}.rlib")
            fits[crate] = stands and is_same(crate, clone) and all(can_take(below) for below in uses[crate])
        return fits[crate]

    for crate in uses:
        if can_take(crate):
            to = f"{ROOT}/crates/{crate}/out/rlib"
            shutil.rmtree(to, ignore_errors=True)
            shutil.copytree(f"{clone}/crates/{crate}/out/rlib", to, symlinks=True, copy_function=os.link)
            taken.append(crate)
    print(f"{len(taken)} taken: {' '.join(taken)}")
    return 0


def stand(found, crates):
    """Those of these crates whose libraries stand here, and those of all below them."""
    standing = {name for name in crates if os.path.isdir(f"{ROOT}/crates/{name}/out/rlib/{name}.rlib")}
    while lost := {name for name in standing if not standing.issuperset(found.uses[name])}:
        standing -= lost
    return standing


def call_prover(verb, crate, *more):
    """Calls the prover in the crate's folder as `rt check` would, and returns its exit status. For a check, libraries that don't stand are
    handed over as source: then what is called of them is checked too."""
    folder, found = kit(), CrateList()
    below = found.reached([crate]) - {crate}
    standing = stand(found, below)
    read = {crate, *(below - standing)}
    if verb == "build" and len(read) > 1:
        print(f"no library is made over source: {' '.join(sorted(read - {crate}))} don't stand", file=sys.stderr)
        return 1
    words = [f"{folder}/bin/rattle", verb, "--crate-name", crate]
    words.append("src/main.rt" if os.path.isfile(f"{ROOT}/crates/{crate}/src/main.rt") else "src/lib.rt")
    words += ["-L", f"dependency={folder}/rlibs"]
    for name in sorted({it for one in read for it in found.of_kit[one]}):
        words += ["--extern", f"{name}={folder}/rlibs/{name}.rlib"]
    for name in sorted({it for one in read for it in found.uses[one] if it in standing}):
        words += ["--extern", f"{name}={ROOT}/crates/{name}/out/rlib/{name}.rlib"]
    for name in sorted(standing):
        words += ["-L", f"dependency={ROOT}/crates/{name}/out/rlib"]
    for name in sorted(read - {crate}):
        words += ["--lib", f"{name}:{','.join([*found.uses[name], *found.of_kit[name]])}={ROOT}/crates/{name}/src/lib.rt"]
    words += ["--antt-project", f"{folder}/rattle/logic/antt-project.json", "--logic-built", f"{folder}/logic_built"]
    words += ["--links", f"{crate}=", *more, "--incremental", "out/incremental"]
    os.makedirs(f"{ROOT}/crates/{crate}/out", exist_ok=True)
    return subprocess.run(words, cwd=f"{ROOT}/crates/{crate}", check=False).returncode


def main(words):
    match words:
        case ["--take"]:
            return take_libraries()
        case ["--take", clone]:
            return take_from(os.path.abspath(clone))
        case ["--make", crate]:
            folder = f"{ROOT}/crates/{crate}/out/rlib"
            shutil.rmtree(folder, ignore_errors=True)
            os.makedirs(folder)
            return call_prover("build", crate, "-o", f"out/rlib/{crate}.rlib")
        case [crate, *functions] if crate in CrateList().uses:
            only = [word for function in functions for word in ("--only", function)]
            tests = ["--test"] if crate.endswith("_tests") else []
            return call_prover("check", crate, *tests, "--allow-holes", *only)
    print(__doc__, file=sys.stderr)
    return 2


if __name__ == "__main__":
    sys.exit(main(sys.argv[1:]))
