"""What the program prints and how it ends, for the words of a command line, as
docs/FORMATS.md says it.

    python3 tools/expected/program.py step IMAGE SCRIPT [--config FILE] [--harts N] [--records] [--show] [--looks]
        [--story [--all]]
    python3 tools/expected/program.py plain IMAGE ORDER [--config FILE] [--records] [--story [--all]]
    python3 tools/expected/program.py plain IMAGE --rounds K [--steps N] [--seed S] [--config FILE] [--records]
    python3 tools/expected/program.py list IMAGE [--config FILE]
    python3 tools/expected/program.py explain IMAGE [--script FILE | --order FILE] [--config FILE]
    python3 tools/expected/program.py litmus TEST [--states N]
"""

import sys

import core
import explanation
import image
import inputs
import labels
import litmus
import looks
import story
from inputs import Refused
from instructions import spelled
from plain import Plain
from rounds import make_rounds


def read_file(name):
    """The bytes of a file, None where it can't be read; `-` is standard input."""
    try:
        with open("/dev/stdin" if name == "-" else name, "rb") as file:
            return file.read()
    except OSError:
        return None


def loaded(name, settings):
    file = read_file(name)
    if file is None:
        raise Refused("file", 5)
    made = image.load(file, settings["ram"])
    if isinstance(made, int):
        raise Refused(f"image refused {made}", 2)
    return made


def make_asks(machine, asks):
    """A line for each ask of a script, and two for a `U` that gets a job."""
    held = set()
    for letter, actor, hart, times in asks:
        for _ in range(times):
            yield from lines_of_ask(machine, held, letter, actor, hart)


def lines_of_ask(machine, held, letter, actor, hart):
    if letter in "IU":
        line = answer(machine, lambda: machine.issue(actor))
        yield line
        if not line.startswith("done"):
            return
        held.add(actor)
        if letter == "I":
            return
    if letter in "CU":
        # What is handed to a full history is spent all the same.
        yield "none" if actor not in held else answer(machine, lambda: machine.complete(actor))
        held.discard(actor)
        return
    calls = {"F": lambda: machine.fetch(actor)}
    for name, call in {"D": machine.decode, "R": machine.rename, "T": machine.retire}.items():
        calls[name] = lambda call=call: call(actor, hart)
    yield answer(machine, calls[letter])


def answer(machine, call):
    if machine.is_full():
        return "full"
    event = call()
    return "idle" if event is None else f"done {event}"


def items(found):
    return " ".join(found) or "-"


def standing(status):
    return " ".join(str(part) for part in status)


def tables(machine):
    for h, hart in enumerate(machine.harts):
        place = f"pc {hart.pc:08x} icount {hart.icount()} reserved {core.digits(hart.reserved)}"
        yield f"hart {h} {standing(hart.status)} {place}"
        yield "fetched " + items(str(f.number) for f in hart.at("fetched"))
        yield "decoded " + items(str(f.number) for f in hart.at("decoded"))
        flight = hart.in_flight()
        yield "flight " + items(f"{f.number}:{f.stage[0]}:{core.dash(f.register)}" for f in flight)
        yield "map " + items(map(str, hart.map()))
        yield "committed " + items(map(str, hart.committed))
    yield "queue " + items(f"{f.number}.{f.hart}" for f in machine.queue())
    yield "jobs " + items(f"{actor}:{machine.jobs[actor].number}" for actor in sorted(machine.jobs))
    free = machine.free()
    yield "free " + items(map(str, free))
    for p in sorted(set(range(machine.total)) - set(free)):
        yield f"reg {p} {core.digits(machine.values[p])}"


def looked(machine):
    again, loads = looks.looks(machine.history), looks.loads(machine.history)
    return f"looks {len(again)} of {len(loads)} loads"


def report(machine, with_records):
    if with_records:
        yield from machine.records
    yield f"events {machine.events}"
    yield f"retired {len(machine.records)}"
    yield f"lent {len(machine.jobs)}"
    yield from ending([hart.status for hart in machine.harts], machine.output)


def ending(statuses, output):
    """The last lines of a report: how the harts stand, and what was put out."""
    for h, status in enumerate(statuses):
        yield f"hart {h} {standing(status)}"
    yield "output " + (bytes(output).hex() or "-")


def exit_status(statuses):
    if ("going",) in statuses:
        return 3
    return 0 if all(status == ("ended", 0) for status in statuses) else 1


def make_steps(machine, order):
    """The records of an order's steps, made by the plain machine. The first step that it refuses is
    told by its place, from 0."""
    for place, h in enumerate(order):
        why = machine.refusal(h)
        if why is not None:
            raise Refused(f"order {place} refused {why}", 2)
        yield machine.step(h)


def plain_report(machine, records, with_records):
    if with_records:
        yield from records
    yield f"retired {len(records)}"
    yield from ending(machine.statuses, machine.output)


def listing(made):
    for pc in range(made.code, made.code + len(made.code_bytes), 4):
        word = made.word(pc)
        yield f"{pc:08x} {word:08x} {spelled(word, pc)}"


def asked(made, settings, second, line):
    """The lines of a script's asks and of the core's report, and the exit status."""
    asks = inputs.read_script(second)
    machine = core.Core(made, settings)
    out = list(make_asks(machine, asks))
    out += told_of(made, settings, retired_in(machine.records), line) if line["story"] else []
    out += tables(machine) if line["show"] else []
    out += [looked(machine)] if line["looks"] else []
    out += report(machine, line["records"])
    return out, exit_status([hart.status for hart in machine.harts])


def ordered(made, settings, second, line):
    """The lines of the plain machine's report, behind an order, and the exit status."""
    order = inputs.read_order(second)
    machine = Plain(made, settings["harts"])
    records = list(make_steps(machine, order))
    told = list(told_of(made, settings, order, line)) if line["story"] else []
    return told + list(plain_report(machine, records, line["records"])), exit_status(machine.statuses)


def retired_in(records):
    """The order of retirement: the harts of these records."""
    return [int(record.split(" ")[0]) for record in records]


def told_of(made, settings, order, line):
    """The story of an order all of whose steps are made."""
    names = labels.Labels(read_file(line["files"][0]), True, None)
    beside = labels_of(line, made)
    return story.story(
        Plain(made, settings["harts"]),
        order,
        lambda address: named if (named := names.name_of(address)) != "-" else f"{address:08x}",
        lambda pc: "" if beside is None else beside.beside(pc),
        line["all"],
    )


def in_rounds(made, settings, line):
    """The lines of the plain machine's report, behind its rounds, and the exit status."""
    machine = Plain(made, settings["harts"])
    records = list(make_rounds(machine, line["rounds"], line["steps"], line["seed"]))
    return list(plain_report(machine, records, line["records"])), exit_status(machine.statuses)


def explained(line, settings, made):
    """What is said of a configuration and an image that are accepted, and of what stands beside them."""
    out = [*explanation.of_config(settings), *explanation.of_image(made, read_file(line["files"][0]))]
    if line["beside"] is None:
        return out, [], 0
    kind, name = line["beside"]
    data = read_file(name)
    if data is None:
        return out, ["smtsim: file"], 5
    of_kind = {"script": explanation.of_script, "order": explanation.of_order}[kind]
    lines, why = of_kind(data, made, settings)
    return out + lines, [] if why is None else [f"smtsim: {why}"], 0 if why is None else 2


def labels_of(line, made):
    """What is wanted beside addresses; None where nothing is."""
    if not line["names"] and line["lines"] is None:
        return None
    text = read_file(line["lines"]) if line["lines"] is not None else None
    if line["lines"] is not None and text is None:
        raise Refused("file", 5)
    lines = None if text is None else labels.source_lines(text, made)
    return labels.Labels(read_file(line["files"][0]), line["names"], lines)


def of_litmus(words):
    """The same of a litmus test."""
    data = read_file(words[1])
    if data is None:
        return [], ["smtsim: file"], 5
    most = int(words[3]) if words[2:3] == ["--states"] else litmus.MOST_STATES
    out, err, status = litmus.said(data, most)
    return out.split("\n")[:-1], err.split("\n")[:-1], status


def run(words):
    """The lines on standard output, those on standard error, and the exit status."""
    if words[0] == "litmus":
        return of_litmus(words)
    out, faults, status, beside = bare_run(words)
    if beside is None:
        return out, faults, status
    return [beside.marked(words[0], text) for text in out], faults, status


def bare_run(words):
    """The same without what is wanted beside addresses, and behind it that."""
    beside = None
    try:
        line = inputs.read_line(words)
        config = read_file(line["config"]) if line["config"] is not None else b""
        if config is None:
            raise Refused("file", 5)
        settings = inputs.read_config(config)
        settings["harts"] = line["harts"] or settings["harts"]
        made = loaded(line["files"][0], settings)
        if line["command"] == "explain":
            return *explained(line, settings, made), None
        beside = labels_of(line, made)
        if line["command"] == "list":
            return list(listing(made)), [], 0, beside
        if line.get("rounds") is not None:
            out, status = in_rounds(made, settings, line)
            return out, [], status, beside
        second = read_file(line["files"][1])
        if second is None:
            raise Refused("file", 5)
        made_by = {"step": asked, "plain": ordered}[line["command"]]
        out, status = made_by(made, settings, second, line)
    except Refused as refused:
        return [], [f"smtsim: {refused.why}"], refused.status, None
    return out, [], status, beside


if __name__ == "__main__":
    printed, faults, status = run(sys.argv[1:])
    sys.stdout.writelines(f"{text}\n" for text in printed)
    sys.stderr.writelines(f"{text}\n" for text in faults)
    sys.exit(status)
