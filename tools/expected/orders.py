"""Runs the program's `schedule`, `step` and `plain` on the same orders, and compares them with each
other and with the model here.

    python3 tools/expected/orders.py all PROGRAM [STEPS] [NAME..]
        every order of up to STEPS steps (8 without it) of the litmus programs and the locks, or of
        those of them that are named; the ones that the plain machine refuses too
    python3 tools/expected/orders.py random COUNT SEED PROGRAM
        COUNT random orders of the C programs, of up to 2,000 steps, with random configurations

On each order the script of `schedule` has to be the model's. Under it `step` has to retire the
records that `plain` prints on the order, with the same statuses, output and exit status, and within
six events a step and one a hart; what `plain` prints has to be the model's. The configuration has a
limit of exactly so many events. Where the plain machine refuses the order, `schedule` and `plain`
have to say so in the same words. It prints a line for each program, and how many orders differ.
"""

import itertools
import os
import random
import subprocess
import sys
import tempfile

import image
import limits
import program
import schedule
from inputs import DEFAULTS, Refused
from limits import ROLES
from plain import Plain

EXAMPLES = os.path.normpath(f"{os.path.dirname(os.path.abspath(__file__))}/../../examples")
# How many harts each small program has.
SMALL = {
    "litmus/message_passing": 2, "litmus/store_buffering": 2, "litmus/load_buffering": 2,
    "litmus/coherent_reads": 2, "litmus/independent_reads": 4, "locks/swap": 2,
    "locks/reserve": 2, "locks/ticket": 2, "locks/barrier": 2, "locks/broken": 2,
}
C_PROGRAMS = ("c/sort", "c/primes", "c/search")
LONGEST = 2000


class Program:
    """The built program, started on files in a folder of its own."""

    def __init__(self, path):
        self.path, self.folder = os.path.abspath(path), tempfile.TemporaryDirectory()

    def file(self, name, text):
        path = f"{self.folder.name}/{name}"
        with open(path, "w", encoding="utf-8") as file:
            file.write(text)
        return path

    def run(self, *words):
        """The lines on standard output and on standard error, and the exit status."""
        made = subprocess.run(
            [self.path, *words], capture_output=True, text=True, check=False, close_fds=False
        )
        return made.stdout.splitlines(), made.stderr.splitlines(), made.returncode


def load(name):
    with open(f"{EXAMPLES}/{name}.elf", "rb") as file:
        return image.load(file.read(), DEFAULTS["ram"])


def config_text(settings):
    roles = ", ".join(f'"{role}"' for role in settings["actors"])
    numbers = "".join(f"{key} = {settings[key]}\n" for key in ("harts", "extra", "queue", "limit"))
    return f"{numbers}actors = [{roles}]\n"


def told_by_the_model(made, settings, order):
    """The lines of `schedule` and of `plain --records`, and the latter's exit status; or the line
    of the refusal."""
    machine = Plain(made, settings["harts"])
    try:
        records = list(program.make_steps(machine, order))
        lines = schedule.scheduled(made, settings, order)
    except Refused as refused:
        return f"smtsim: {refused.why}"
    report = list(program.plain_report(machine, records, True))
    return lines, report, program.exit_status(machine.statuses)


def behind_the_asks(lines, most):
    """Of what `step` prints: what `plain` prints too. None where there are too many events, or a
    job is left."""
    answers = ("done ", "idle", "full", "stranger", "none")
    report = [line for line in lines if not line.startswith(answers)]
    counts = {line.split()[0]: int(line.split()[1]) for line in report if line[:2] in ("ev", "le")}
    if counts["events"] > most or counts["lent"] != 0:
        return None
    return [line for line in report if line.split()[0] not in counts]


def agrees(smtsim, name, made, settings, order):
    """Whether all agree on an order; and whether the plain machine takes it."""
    settings = {**settings, "limit": schedule.room(order, settings)}
    words = (f"{EXAMPLES}/{name}.elf", smtsim.file("order", " ".join(map(str, order))))
    config = ("--config", smtsim.file("config", config_text(settings)))
    wanted = told_by_the_model(made, settings, order)
    by_schedule = smtsim.run("schedule", *words, *config)
    by_plain = smtsim.run("plain", *words, *config, "--records")
    if isinstance(wanted, str):
        return by_schedule == by_plain == ([], [wanted], 2), False
    script = smtsim.file("script", "".join(f"{line}\n" for line in by_schedule[0]))
    lines, faults, status = smtsim.run("step", words[0], script, *config, "--records")
    by_core = behind_the_asks(lines, settings["limit"]), faults, status
    scheduled, report, ended = wanted
    return (
        by_schedule == (scheduled, [], 0) and by_core == by_plain == (report, [], ended)
    ), True


def compare(smtsim, name, made, orders):
    """Compares all orders, each with its settings, and says how that went."""
    taken, refused, steps, differ = 0, 0, 0, 0
    for settings, order in orders:
        right, is_taken = agrees(smtsim, name, made, settings, order)
        taken, refused = taken + is_taken, refused + (not is_taken)
        steps += len(order) if is_taken else 0
        if not right:
            differ += 1
            print(f"{name} differs on {' '.join(map(str, order))}\n{config_text(settings)}")
    told = f"{taken} orders of {steps} steps, {refused} refused, {differ} differ"
    print(f"{name}: {told}", flush=True)
    return differ


def every_order(harts, steps):
    settings = {**DEFAULTS, "harts": harts}
    for length in range(steps + 1):
        for order in itertools.product(range(harts), repeat=length):
            yield settings, order


def random_settings(chance):
    """A configuration with a unit of each kind, and sizes from the least on."""
    more = chance.randint(0, chance.choice([13, limits.MOST_ACTORS - 3]))
    actors = ["alu", "mul", "mem", *chance.choices(ROLES, k=more)]
    chance.shuffle(actors)
    return {
        **DEFAULTS, "harts": chance.choice(limits.HARTS), "extra": chance.choice([1, 2, 31, 64, limits.MOST_EXTRA]),
        "queue": chance.choice([4, 5, 16, 64]), "actors": actors,
    }


def random_order(chance, made, harts):
    """An order in bursts of random length. One in ten may name a hart that has ended, or that there
    isn't; all others have harts that are going."""
    machine, order = Plain(made, harts), []
    length = chance.choice([chance.randint(0, 20), chance.randint(0, 300), LONGEST])
    longest, is_careless = chance.choice([1, 3, 50, 1000]), chance.random() < 0.1
    while len(order) < length and machine.going():
        h = chance.choice(machine.going())
        for _ in range(min(chance.randint(1, longest), length - len(order))):
            if machine.refusal(h) is None:
                machine.step(h)
                order.append(h)
    if is_careless:
        order.insert(chance.randint(0, len(order)), chance.randint(0, harts))
    return order


def random_orders(chance, made, count):
    for _ in range(count):
        settings = random_settings(chance)
        yield settings, random_order(chance, made, settings["harts"])


def main(words):
    if words[0] == "all":
        smtsim, steps, names = Program(words[1]), int((words[2:] or ["8"])[0]), words[3:]
        return sum(
            compare(smtsim, name, load(name), every_order(harts, steps))
            for name, harts in SMALL.items() if not names or name in names
        )
    count, chance, smtsim = int(words[1]), random.Random(words[2]), Program(words[3])
    differ = 0
    for k, name in enumerate(C_PROGRAMS):
        share = (count + k) // len(C_PROGRAMS)
        made = load(name)
        differ += compare(smtsim, name, made, random_orders(chance, made, share))
    return differ


if __name__ == "__main__":
    sys.exit(1 if main(sys.argv[1:]) else 0)
