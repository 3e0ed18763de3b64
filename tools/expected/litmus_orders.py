"""The orders that `smtsim litmus` writes, held against models, on a folder of tests.

    python3 tools/expected/litmus_orders.py PROGRAM [FOLDER]
        of each test (examples/litmus) and each of its final states: the order, its script, its story and its picture

The image that `--image` writes has the test's locations and arrays as its names, by symbols.py; the order of each line, made by a
model of the plain machine on that image (plain.py), ends in the state that the line says (litmus.py); the story of the
order is that of story.py with these names, and the line behind it; by the script, `step` retires as many instructions of
each hart as the order has; the picture has the line in its foot. Prints how many states agree, and ends with status 1
where one doesn't.
"""

import glob
import os
import re
import subprocess
import sys
import tempfile

import image
import litmus
import litmus_reading
import symbols
from litmus_machine import RAM_BYTES, numbers_of
from litmus_places import RAM
from plain import Plain
from story import story


class Wrong(Exception):
    """What was written isn't what had to come."""


def see(is_so, what):
    if not is_so:
        raise Wrong(what)


def call(program, *words):
    done = subprocess.run([program, *words], capture_output=True, check=False)
    see(done.returncode in (0, 1), f"{' '.join(words)}: status {done.returncode}: {done.stderr.decode()}")
    return done.stdout


def read(name):
    with open(name, "rb") as file:
        return file.read()


def place_of(test):
    """How a place in memory is told: by the location, or how far behind one it is; else by its address."""

    def told(address):
        for name, one in test.declared.items():
            behind = address - RAM - one.byte
            if 0 <= behind < one.bytes:
                return name + (f"+{behind}" if behind else "")
        return f"{address:08x}"

    return told


def state_of(test, machine):
    """The final state that a machine is in: each hart's cause, and the numbers that the test looks at."""
    see(all(status[0] == "stopped" for status in machine.statuses), "a hart goes on")
    places = numbers_of(test)
    numbers = [
        machine.registers[what[0]][what[1]]
        if isinstance(what, tuple)
        else machine.read(RAM + places[what].byte, places[what].size)
        for what in test.question.observed
    ]
    return tuple(status[1] for status in machine.statuses), tuple(numbers)


def see_names(test, file):
    found = symbols.names(file) or []
    wanted = [
        (name.encode(), RAM + one.byte, one.bytes, symbols.OBJECT, True) for name, one in test.declared.items()
    ]
    see(found == wanted, "the names of the image")


def see_state(program, file, test, made, line, number, folder):
    """One line, from 1: its order, its story, its script and its picture."""
    out = f"{folder}/out"
    words = ("litmus", file, "--outcome", str(number))
    call(program, *words, "--witness", out)
    order = [int(word) for word in read(out).split()]
    machine = Plain(made, len(test.code))
    for hart in order:
        see(machine.refusal(hart) is None, "a step that isn't made")
        machine.step(hart)
    see(litmus.state_line(test, state_of(test, machine)) == line, "the state of the order")
    for every in (False, True):
        call(program, *words, "--story", out, *(["--all"] if every else []))
        told = list(story(Plain(made, len(test.code)), order, place_of(test), lambda pc: "", every))
        see(read(out).decode() == "".join(f"{row}\n" for row in [*told, line]), "the story")
    call(program, *words, "--script", out)
    report = call(program, "step", f"{folder}/image", out, "--harts", str(len(test.code)), "--records").decode()
    retired = [row.split()[0] for row in report.splitlines() if re.match(r"\d+ 8000", row)]
    see(retired == [str(hart) for hart in order], "the script")
    call(program, *words, "--story-svg", out, "--theme", "dark")
    see(line.split(";")[0] in read(out).decode(), "the picture")


def see_test(program, file):
    """How many states of a test agree."""
    test = litmus_reading.read(read(file).decode("latin-1"))
    with tempfile.TemporaryDirectory() as folder:
        said = call(program, "litmus", file, "--image", f"{folder}/image").decode("latin-1").splitlines()
        bytes_of_image = read(f"{folder}/image")
        see_names(test, bytes_of_image)
        made = image.load(bytes_of_image, RAM_BYTES)
        see(isinstance(made, image.Image), "the image")
        lines = said[2 : 2 + int(said[1].split()[1])]
        for number, line in enumerate(lines, 1):
            see_state(program, file, test, made, line, number, folder)
        past = subprocess.run(
            [program, "litmus", file, "--outcome", str(len(lines) + 1), "--witness", f"{folder}/none"],
            capture_output=True, check=False,
        )
        see((past.returncode, past.stdout, past.stderr) == (2, b"", f"smtsim: no outcome {len(lines) + 1}\n".encode()),
            "a state that isn't there")
        see(not os.path.exists(f"{folder}/none"), "a file of a state that isn't there")
        return len(lines)


def main(words):
    folder = words[1] if len(words) > 1 else "examples/litmus"
    states = wrong = 0
    files = sorted(glob.glob(f"{folder}/*.litmus"))
    for file in files:
        try:
            states += see_test(words[0], file)
        except Wrong as what:
            wrong += 1
            print(f"{file}: {what}")
    print(f"{len(files)} tests, {states} states agree, {wrong} tests don't")
    return 1 if wrong or not files else 0


if __name__ == "__main__":
    sys.exit(main(sys.argv[1:]))
