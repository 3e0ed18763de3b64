"""Holds the core model against the plain machine: what the core retires has to be a run of it, in
the order of retirement.

    python3 tools/expected/sequential.py [COUNT] [SEED] [code]
        the core model of that many random runs (random_runs.py), with `code` of programs that write
        their own code
"""

import sys

import core
import image
import inputs
import program
import random_runs
from plain import Plain


def disagreements(machine):
    """What a plain run in the order of retirement says otherwise than a core."""
    plain = Plain(machine.image, len(machine.harts))
    for place, found in enumerate(machine.records):
        wanted = plain.step(int(found.split()[0]))
        if wanted != found:
            return [f"record {place} is {found}, not {wanted}"]
    said = []
    for h, hart in enumerate(machine.harts):
        committed = [0] + [machine.values[p] for p in hart.committed]
        parts = {
            "registers": (committed, plain.registers[h]),
            "status": (hart.status, plain.statuses[h]),
            "reservation": (hart.reserved, plain.reserved[h]),
        }
        said += [f"hart {h}: {name}" for name, (mine, other) in parts.items() if mine != other]
    said += ["memory"] if machine.written != plain.memory else []
    return said + (["output"] if machine.output != plain.output else [])


def core_of(seed, k, kind):
    """The core of random run k, behind its script; None where the run asks no core."""
    files, line = random_runs.inputs_of(seed, k, kind)
    if line[0] != "step":
        return None
    settings = inputs.read_config(files["config.toml"])
    machine = core.Core(image.load(files["image.elf"], settings["ram"]), settings)
    for _ in program.make_asks(machine, inputs.read_script(files["script"])):
        pass
    return machine


def main(words):
    kind = "code" if words[-1:] == ["code"] else None
    words = words[:-1] if kind else words
    count, seed = int(words[0]) if words else 1000, int(words[1]) if len(words) > 1 else 1
    retired, wrong = 0, 0
    for k in range(count):
        machine = core_of(seed, k, kind)
        if machine is None:
            continue
        retired += len(machine.records)
        for text in disagreements(machine):
            wrong += 1
            print(f"run {k} of seed {seed}: {text}")
    print(f"{count} runs, {retired} retired instructions, {wrong} disagreements")
    return 1 if wrong or not retired else 0


if __name__ == "__main__":
    sys.exit(main(sys.argv[1:]))
