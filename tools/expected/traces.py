"""Random traces, before the second judge and before a built program.

    python3 tools/expected/traces.py COUNT SEED FOLDER PROGRAM
        COUNT traces; PROGRAM is `-` where there is none to compare with

    python3 tools/expected/traces.py stored
        the histories of the runs of tests/runs, before the judge alone

The model of the core here makes the history of a random program, configuration and script. In some
of them what the rules leave open (where a fetch goes on, which free register is taken) is decided
at random. Half of the traces stay as they are: the second judge (judge.py) has to print the model's
report on them, and by its definitions as many loads look again as the model says. In the other half
one line is changed, moved, doubled, taken out or put behind. One program in three writes its own code,
and behind each event of an unchanged trace exactly one of a retirement and a refetch has to be allowed
of an instruction that has completed and is the oldest of its hart. Some of the traces are of version 1
or 2; those of versions 2 and 3 have a configuration of other sizes beside them, and in some of the
changed ones the lines before the events are changed. The judge and the model, which makes one event of the trace after
the other while it can, have to refuse the same event; the rule is the judge's alone. `PROGRAM check`
has to print what the judge prints, byte for byte, with the same status, and `PROGRAM migrate` has to
write what the judge's reader does. What differs is left in FOLDER and told, and the exit status is
then 1. Trace K of a seed is the same whatever COUNT is.
"""

import collections
import glob
import os
import random
import re
import shlex
import subprocess
import sys

import code_runs
import core
import fill
import image
import inputs
import judge
import judge_history
import judge_inputs
import judge_rules
import limits
import program
import random_runs
import random_words
from trace_changes import changed, one_more, other_head

MOST_LINES = (20, 60, 100, 160, 320)
# The place of a change before all events.
BEFORE = -3


class OpenCore(core.Core):
    """The model's core, with what the rules leave open decided at random."""

    def __init__(self, made, settings, r, share):
        super().__init__(made, settings)
        self.random, self.share = r, share

    def fetch(self, actor):
        line = super().fetch(actor)
        if line is None or self.random.random() >= self.share:
            return line
        hart = self.harts[self.last_fetched]
        pc, far = hart.flying[-1].pc, self.random.randrange(2**32)
        ways = (pc, pc + 4, pc + 4, pc + 8, pc - 4, pc + 2, self.image.entry, far)
        hart.pc = hart.flying[-1].predicted = self.random.choice(ways) % 2**32
        return f"{line[:-8]}{hart.pc:08x}"

    def free(self):
        found = super().free()
        return self.random.sample(found, len(found)) if self.share else found


class FollowingCore(core.Core):
    """The model's core, which takes from an event what the rules leave open, and then makes it."""

    guess = wanted = None

    def fetch(self, actor):
        line = super().fetch(actor)
        if line is None:
            return None
        hart = self.harts[self.last_fetched]
        hart.pc = hart.flying[-1].predicted = self.guess
        return f"{line[:-8]}{self.guess:08x}"

    def free(self):
        found = super().free()
        return [self.wanted] if self.wanted in found else found

    def follows(self, line):
        """Whether the core makes just this event, of the kinds of ask that there are."""
        letter, actor, *fields = line.split(" ")
        actor = int(actor)
        if letter == "F":
            self.guess = int(fields[-1], 16)
            return self.fetch(actor) == line
        if letter == "I":
            return self.issue(actor) == line
        if letter in "CX":
            return actor in self.jobs and self.complete(actor) == line
        self.wanted = int(fields[1]) if letter == "R" and fields[1] != "-" else None
        ask = {"D": self.decode, "R": self.rename, "T": self.retire, "G": self.retire}[letter]
        owners = (f.hart for hart in self.harts for f in hart.flying if f.number == int(fields[0]))
        return any(ask(actor, h) == line for h in owners)


# ---- The inputs of a trace, and what is said of it


def history_of(machine, asks, most):
    """The lines of the events that a script's asks make, `most` of them at most."""
    lines = []
    for line in program.make_asks(machine, asks):
        if line.startswith("done "):
            lines.append(line[5:])
        if len(lines) == most:
            break
    return lines


def filling(r, config):
    """A program and a script that fill the places of a core: one of its queues, the active list, or
    the registers."""
    config.update(harts=r.choice((1, 1, 2)), queue=r.choice((4, 16, 64)), extra=r.choice((8, 256)))
    config["actors"] = ["mem", "alu"]
    word = r.choice((0x0004A283, 0x0054A023, 0x0014A003, 0x00128293, 0x00000013, 0x0004A02F))
    rare = r.choice((0x00128293, 0x0004A283, 0x0054A023))
    words = [word if r.random() < 0.95 else rare for _ in range(70)]
    a_round = [f"F0*{r.choice((3, 8)) * config['harts']}"]
    for h in range(config["harts"]):
        a_round += [f"{letter}0.{h}*{r.choice((3, 8))}" for letter in "DR"]
    a_round += [r.choice(("", "I0", "U0*4 U1*4", "U0 U1*8", "U0*8 U1*8", "T0.0"))]
    return random_words.TO_MEMORY + words, " ".join(a_round * r.choice((3, 12, 12)))


def sharing(r, config):
    """A program and a script of harts that share words, and retire in turns of their own: loads are
    overtaken, and reservations end."""
    config.update(harts=r.choice((2, 2, 3)), queue=64, extra=64, actors=["mem", "alu", "mul"])
    words = [random_words.some_access(r) for _ in range(r.choice((4, 8, 20)))]
    words += [random_words.some_word(r, 60) for _ in range(r.choice((0, 2)))]
    if r.random() < 0.5:  # lr.w x5,(x9); sc.w x7,x10,(x9)
        words = [0x1004A2AF, *words[: r.choice((0, 2, 4))], 0x18A4A3AF, *words]
    words += [random_words.jump(0, -4 * len(words))]
    asks = [f"F0*{r.randint(8, 16)}"]
    for _ in range(12):
        asks += [f"F0*{r.randint(1, 4)}"]
        asks += [f"{x}0.{h}*4" for h in range(config["harts"]) for x in "DR"]
        asks += ["U1*8 U2*2", f"U0*{r.randint(1, 6)}"]
        asks += [f"T0.{r.randrange(config['harts'])}*{r.randint(1, 6)}"]
    return random_words.TO_MEMORY + words, " ".join(asks)


def text_of(lines):
    return "".join(f"{line}\n" for line in lines).encode()


def version_for(settings, lines=()):
    """The first version that a trace of a core may have: in the first there are no more harts and actors, and in the
    first two no refetches."""
    if any(line[0] == "G" for line in lines):
        return 3
    return 2 if settings["harts"] > limits.FIRST.hart + 1 or len(settings["actors"]) > limits.FIRST.actor + 1 else 1


def heads_of(settings, version):
    """The lines before the events of a trace of a version."""
    if version == 1:
        return ["smt-trace 1"]
    sizes = " ".join(str(settings[key]) for key in ("harts", "extra", "queue"))
    return [f"smt-trace {version}", f"config {sizes} {' '.join(settings['actors'])}"]


def config_text(config):
    return text_of(f"{key} = {value}".replace("'", '"') for key, value in config.items())


def beside(r, config):
    """A configuration of another core beside a trace that names its core, with the same memory."""
    other = random_runs.some_config(r)
    return {**other, "ram": config["ram"]} if r.random() < 0.7 else config


def made(seed, k):
    """The files of trace k, what the model reports, how many loads it has look again, and the first
    event that was changed, if any."""
    r = random.Random(f"trace {seed} {k}")
    config, words = random_runs.some_config(r), random_words.some_code(r)
    del config["limit"]
    writes_code = r.random() < 0.35
    if words[:2] == random_words.TO_MEMORY or writes_code:
        config["actors"] = random_runs.with_memory_units(r, config["actors"])
    if writes_code:
        config |= {"harts": r.choice((1, 1, 2, 3)), "extra": 64} if r.random() < 0.8 else {}
    script, way = random_runs.some_script(r, config, 0.9 if writes_code else 0.7), r.random()
    if writes_code:
        way = 1
        script += " " + random_runs.some_script(r, config, 1)
    elif way < 0.1:
        words, script = filling(r, config)
    elif way < 0.4:
        words, script = sharing(r, config)
    file = code_runs.some_image(r) if writes_code else image.build(words, entry=image.BASE)
    settings = {**inputs.DEFAULTS, **config}
    machine = OpenCore(image.load(file, settings["ram"]), settings, r, r.choice((0, 0, 0.1, 0.3)))
    most = r.choice(MOST_LINES if way >= 0.4 else (200, 320))
    lines = history_of(machine, inputs.read_script(script.encode()), most)
    report, looked = list(program.report(machine, True)), program.looked(machine)
    place = None
    least = version_for(settings, lines)
    version = r.choice([version for version in (1, 2, 3, 3) if version >= least])
    heads = heads_of(settings, version)
    if k % 2 and version > 1 and r.random() < 0.3:
        heads, place = other_head(r, heads), BEFORE
    elif k % 2 and lines:
        lines, place = one_more(r, lines, machine) if way < 0.1 else changed(r, lines, machine)
    config = beside(r, config) if version > 1 else config
    files = {"image.elf": file, "config.toml": config_text(config), "trace": text_of([*heads, *lines])}
    status = program.exit_status([hart.status for hart in machine.harts])
    return files, (text_of(report).decode(), "", status), looked, place


def by_judge(files, records=True):
    """What the judge prints on standard output and standard error, and its exit status."""
    try:
        settings = judge_inputs.settings_of(files["config.toml"])
        found = judge_inputs.image_of(files["image.elf"], settings.ram)
        told = judge_inputs.trace_of(files["trace"])
        text, status = judge.judged(found, told.settings(settings), told.events, records)
    except judge_inputs.Refused as refused:
        return "", f"smtsim: {refused.said}\n", refused.status
    return text, "", status


def by_program(name, folder, *words):
    line = [name, *words, "--config", "config.toml"]
    done = subprocess.run(line, cwd=folder, capture_output=True, text=True, check=False)
    return done.stdout, done.stderr, done.returncode


def migrated_by_judge(files):
    """What migration prints, and the text that it writes; None for none."""
    try:
        settings = judge_inputs.settings_of(files["config.toml"])
        return ("", "", 0), judge_inputs.migrated(settings, files["trace"])
    except judge_inputs.Refused as refused:
        return ("", f"smtsim: {refused.said}\n", refused.status), None


def migrated_by_program(name, folder):
    out = f"{folder}/migrated"
    if os.path.exists(out):
        os.remove(out)
    said = by_program(name, folder, "migrate", "trace", "migrated")
    if not os.path.exists(out):
        return said, None
    with open(out, "rb") as file:
        return said, file.read()


def names_core(files):
    """The trace is of a version whose second line names the core."""
    return files["trace"].startswith((b"smt-trace 2\n", b"smt-trace 3\n"))


def first_not_followed(files):
    """The place of the first event that the model's core doesn't make; None where it makes all."""
    settings = inputs.read_config(files["config.toml"])
    lines = files["trace"].decode().split("\n")[1:-1]
    if names_core(files):
        _, harts, extra, queue, *actors = lines.pop(0).split(" ")
        settings |= {"harts": int(harts), "extra": int(extra), "queue": int(queue), "actors": actors}
    machine = FollowingCore(image.load(files["image.elf"], settings["ram"]), settings)
    return next((k for k, line in enumerate(lines) if not machine.follows(line)), None)


def is_refused_early(files, said, place):
    """An event, or a line, is refused that stands before the change."""
    words = said.split()
    if words[1:2] == ["event"]:
        return int(words[2]) < place
    return words[1:3] == ["trace", "line"] and int(words[3]) < place + 2 + names_core(files)


def way_of(place):
    """Whether a trace was changed, for the count."""
    if place is None:
        return "as made"
    return "changed before its events" if place == BEFORE else "changed"


def kind_of(files, found):
    """What was said of a trace, for the count: accepted, a line's refusal, or a rule's."""
    words = found[1].split()
    if not words:
        return "accepted"
    if words[1] == "trace":
        return f"line refused {words[-1]}"
    line = files["trace"].split(b"\n")[int(words[2]) + 1 + names_core(files)]
    return f"{line[:1].decode()} refused rule {words[-1]}"


def write(folder, files):
    os.makedirs(folder, exist_ok=True)
    for name, data in files.items():
        with open(f"{folder}/{name}", "wb") as file:
            file.write(data)


def history_by_judge(files):
    settings = judge_inputs.settings_of(files["config.toml"])
    found = judge_inputs.image_of(files["image.elf"], settings.ram)
    told = judge_inputs.trace_of(files["trace"])
    return judge_rules.Rules(told.settings(settings), found, told.events)


def looked_by_judge(files):
    history = history_by_judge(files)
    n = len(history.events)
    return f"looks {history.looks(n)} of {history.loads(n)} loads"


def has_one_way_out(history):
    """Of each oldest instruction of a hart that has completed, behind each of the events, exactly one of a
    retirement and a refetch is allowed."""
    for n in range(len(history.events) + 1):
        for h in range(history.harts):
            s = judge_history.first(history.flight(n, h))
            if s is None or history.fate(n, s) != judge_history.COMPLETED:
                continue
            retire = judge_inputs.Retire(0, s, history.effect_now(n, history.fetching(n, s)))
            ways = (retire, judge_inputs.Refetch(0, s))
            if sum(all(history.rules(n, e)) for e in ways) != 1:
                return False
    return True


def differences(folder, name, files, report, looked, place, found):
    """What is wrong about a trace, a line each."""
    if place is None and found != report:
        yield "the judge and the model say otherwise"
    if place is None and looked_by_judge(files) != looked:
        yield "the judge and the model count other looks"
    if place is None and not has_one_way_out(history_by_judge(files)):
        yield "a completed instruction has not just one way out"
    if place is not None and is_refused_early(files, found[1], place):
        yield "the judge refuses what stands before the change"
    words = found[1].split()
    if "line" not in words:
        refused = int(words[2]) if words else None
        if first_not_followed(files) != refused:
            yield "the model refuses another event"
    if name != "-":
        write(folder, files)
        name = os.path.abspath(name)
        if by_program(name, folder, "check", "image.elf", "trace", "--records") != found:
            yield "the judge and the program say otherwise"
        if migrated_by_program(name, folder) != migrated_by_judge(files):
            yield "the judge and the program migrate otherwise"


def repeated(line):
    """The lines that a line of an expected output stands for."""
    found = re.match(r"%([0-9]+) (.*)", line)
    return [found[2]] * int(found[1]) if found else [line]


def told_by_run(name):
    """The files of a stored run of a script, and its report; None where it has no history."""
    head, sections = fill.read(name)
    words = shlex.split(head.get("words", ""))
    is_plain_step = "prepare" not in sections and not {"expect", "do"} & set(sections)
    is_told = any(text.startswith("events ") for text in sections.get("stdout", ()))
    if words[:1] != ["step"] or not is_plain_step or not is_told:
        return None
    try:
        line = inputs.read_line(words)
    except inputs.Refused:
        return None  # An option that the model hasn't.
    config = "\n".join(sections.get(f"file {line['config']}", ())).encode()
    settings = inputs.read_config(config)
    with open(f"{fill.RUNS}/{line['files'][0]}", "rb") as file:
        found = file.read()
    printed = [text for line in sections["stdout"] for text in repeated(line)]
    lines = [text[5:] for text in printed if text.startswith("done ")]
    report = text_of(printed[printed.index(f"events {len(lines)}") :]).decode()
    heads = heads_of(settings, version_for(settings, lines))
    files = {"image.elf": found, "config.toml": config, "trace": text_of([*heads, *lines])}
    return files, (report, "", int(head["status"]))


def stored():
    """The judge on the histories of the stored runs: it says what they print behind their asks."""
    count = wrong = 0
    for name in sorted(glob.glob(f"{fill.RUNS}/cases/*.run")):
        told = told_by_run(name)
        if told is None:
            continue
        count += 1
        if by_judge(told[0], records=False) != told[1]:
            wrong += 1
            print(f"the judge says otherwise: {name}")
    print(f"{count} runs have a history, {wrong} differ")
    return 1 if wrong or not count else 0


def main(words):
    if words == ["stored"]:
        return stored()
    if len(words) != 4:
        print(__doc__, file=sys.stderr)
        return 2
    count, seed, folder, name = int(words[0]), words[1], words[2], words[3]
    said, wrong, events = collections.Counter(), 0, 0
    for k in range(count):
        files, report, looked, place = made(seed, k)
        found = by_judge(files)
        events += files["trace"].count(b"\n") - 1 - names_core(files)
        said[f"{way_of(place)}: {kind_of(files, found)}"] += 1
        differing = list(differences(f"{folder}/now", name, files, report, looked, place, found))
        if differing:
            wrong += 1
            write(f"{folder}/{seed}.{k}", files)
            print(f"trace {k} of seed {seed}: {'; '.join(differing)}: {folder}/{seed}.{k}")
    for what, times in sorted(said.items()):
        print(f"{times:6} {what}")
    print(f"{count} traces of {events} events, {wrong} differ")
    return 1 if wrong else 0


if __name__ == "__main__":
    sys.exit(main(sys.argv[1:]))
