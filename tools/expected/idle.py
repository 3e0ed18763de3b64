"""How many asks of each actor of a script are answered idle, as `--counts` has to tell them of `step`.

    idle.py IMAGE SCRIPT [--config FILE] [--json]

Written from docs/FORMATS.md over the model of the core (program.py): an answer `idle` to an ask of an actor is one
more of this actor. It prints a line for each actor of the configuration, or with --json the member of the object.
"""

import argparse
import sys

import core
import inputs
import program


def idle_asks(machine, asks, actors):
    """How many of these asks are answered idle, for each of so many actors."""
    held, found = set(), [0] * actors
    for letter, actor, hart, times in asks:
        for _ in range(times):
            idle = list(program.lines_of_ask(machine, held, letter, actor, hart)).count("idle")
            if actor < actors:
                found[actor] += idle
    return found


def main(words):
    line = argparse.ArgumentParser()
    line.add_argument("image")
    line.add_argument("script")
    line.add_argument("--config")
    line.add_argument("--json", action="store_true")
    asked = line.parse_args(words)
    settings = inputs.read_config(program.read_file(asked.config) if asked.config else b"")
    machine = core.Core(program.loaded(asked.image, settings), settings)
    asks = inputs.read_script(program.read_file(asked.script))
    found = idle_asks(machine, asks, len(settings["actors"]))
    if asked.json:
        print('"idle":[' + ",".join(map(str, found)) + "]")
    else:
        print("\n".join(f"idle-{actor} {count}" for actor, count in enumerate(found)))
    return 0


if __name__ == "__main__":
    sys.exit(main(sys.argv[1:]))
