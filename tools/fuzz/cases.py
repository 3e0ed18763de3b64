"""The kinds of cases: how the files and the command line of one are made, and what its model says."""

import contextlib
import io
import os
import random
import signal
from typing import NamedTuple

import chart
import damage
import every_order
import history_script
import image
import inputs
import judge
import judge_inputs
import judge_why
import litmus
import litmus_tests
import migrate
import outcomes_compare
import program
import random_runs
import retold
import schedule
import traces
from trace_changes import changed, other_head

# How many seconds a model has for one case, and how many states that of a litmus test looks at.
PATIENCE = 10
MOST_LITMUS_STATES = 10000


class TooLong(Exception):
    """The model takes too long, or its case is too large for it."""


class Case(NamedTuple):
    kind: object
    number: int
    files: dict
    line: list


class Kind:
    """A kind of case, under the name of what it tries. Of what the program prints the model doesn't know the
    lines that begin with `unknown`; both write the file `writes`, if any. Where there is no model, the program
    with open streams is one for that with closed streams; where it `varies`, no run does as another one."""

    def __init__(self, name, make, model, unknown=None, writes=None, varies=False):
        self.name, self.make, self.model, self.unknown, self.writes = name, make, model, unknown, writes
        self.varies = varies

    def known(self, text):
        """What a program has printed, as far as the model knows it."""
        if self.unknown is None:
            return text
        return "".join(one for one in text.splitlines(keepends=True) if not one.startswith(self.unknown))

    def said(self, folder, line):
        """What the model says: standard output, standard error, the exit status."""
        here = os.getcwd()
        os.chdir(folder)
        signal.signal(signal.SIGALRM, late)
        signal.alarm(PATIENCE)
        try:
            return self.model(line)
        finally:
            signal.alarm(0)
            os.chdir(here)


def late(_signal, _frame):
    raise TooLong


def as_read(text):
    """A text as a program's output is read: a character for each of its bytes."""
    return text.encode("utf-8", "surrogateescape").decode("latin-1")


def captured(main, words):
    """What a model prints and answers that is a program of its own."""
    out, err = io.StringIO(), io.StringIO()
    try:
        with contextlib.redirect_stdout(out), contextlib.redirect_stderr(err):
            status = main(words) or 0
    except inputs.Refused as refused:
        return "", f"smtsim: {refused.why}\n", refused.status
    except judge_inputs.Refused as refused:
        return "", f"smtsim: {refused.said}\n", refused.status
    return as_read(out.getvalue()), err.getvalue(), status


# ---- What the models say


def by_model(line):
    out, err, status = program.run(line)
    return as_read("".join(f"{t}\n" for t in out)), "".join(f"{t}\n" for t in err), status


def by_explanation(line):
    """What is said of words, where the configuration and the image are accepted; of others there is no model."""
    out, err, status = program.run(line)
    if not out:
        raise TooLong
    return as_read("".join(f"{t}\n" for t in out)), "".join(f"{t}\n" for t in err), status


def by_judge(line):
    return captured(retold.main if "--story" in line else judge.main, line[1:])


def by_why(line):
    """What is told of a trace that is refused; of another one the model doesn't know what `--why` says."""
    try:
        told, refused = judge_why.why_of(line[1], line[2], line[4])
    except judge_inputs.Refused as early:
        told, refused = b"", early
    if refused is None:
        raise TooLong
    return told.decode("latin-1"), f"smtsim: {refused.said}\n", refused.status


def by_schedule(line):
    return captured(lambda words: schedule.main(*words), [line[1], line[2], line[4]])


def by_history_script(line):
    return captured(lambda words: history_script.main(*words), [line[1], line[2], line[4]])


def by_migrate(line):
    return captured(migrate.main, line[1:])


def by_chart(line):
    return captured(chart.main, line[1:])


def by_every_order(line):
    """The lines of all outcomes but the number of states."""
    with open("image.elf", "rb") as file:
        made = image.load(file.read(), 4096)
    with open("config.toml", encoding="ascii") as file:
        harts = int(file.readline().split()[-1])
    options = dict(zip(line[4::2], line[5::2], strict=True))
    try:
        watch, exists = options.get("--watch", ""), options.get("--exists")
        lines = list(every_order.lines(made, harts, watch, exists, outcomes_compare.MOST))
    except every_order.TooMany:
        raise TooLong from None
    except every_order.NoHart as hart:
        return "", f"smtsim: no hart {hart}\n", 2
    return "".join(f"{text}\n" for text in lines), "", 1 if lines[-1] == "exists: no" else 0


def by_litmus(line):
    """What is said of a litmus test, in the words that a program's output is read in."""
    with open(line[1], "rb") as file:
        data = file.read()
    most = int(line[3]) if len(line) > 2 else litmus.MOST_STATES
    try:
        return litmus.said(data, most, MOST_LITMUS_STATES)
    except litmus.TooMany:
        raise TooLong from None


# ---- How a case is made


def some_kind(r):
    """Which kind of run random_runs makes: one in three has a program that writes its own code."""
    return "code" if r.random() < 0.35 else None


COMMENTS = (b" #", b"#", b"# ", b"\n#", b" # F0 #\n", b"\n# 0 1\n", b" #\xc3\xa9\n", b"#\n", b"\t# ")


def with_comments(r, files):
    """The files, where one of words now and then has comments, or what is almost one."""
    for name in {"script", "order"} & files.keys():
        while r.random() < 0.4:
            at = r.randrange(len(files[name]) + 1)
            at = files[name].find(b" ", at) if r.random() < 0.7 and b" " in files[name][at:] else at
            files[name] = files[name][:at] + r.choice(COMMENTS) + files[name][at:]
    return files


def some_asks(r):
    files, line = some_plain_asks(r)
    return with_comments(r, files), line


def some_words(r):
    """A script or an order that is explained."""
    while True:
        files, line = some_asks(r)
        for name in {"script", "order"} & files.keys():
            return files, ["explain", "image.elf", f"--{name}", name, "--config", "config.toml"]


def some_plain_asks(r):
    """A script, an order or a listing, as random_runs makes them; now and then rounds."""
    files, line = random_runs.inputs_of(r.getrandbits(64), 0, some_kind(r))
    if line[0] == "step" and r.random() < 0.2:
        settings = inputs.read_config(files["config.toml"])
        made = image.load(files["image.elf"], settings["ram"])
        del files["script"]
        files["order"] = random_runs.some_order(r, made, settings["harts"]).encode()
        line = ["plain", "image.elf", "order", "--config", "config.toml", *line[5:]]
        line = [word for word in line if word not in ("--show", "--looks")]
    if line[0] == "plain" and r.random() < 0.4:
        del files["order"]
        rounds = ["--rounds", str(r.choice((1, 2, 7, 1000))), "--steps", str(r.choice((0, 1, 50, 2000)))]
        rounds += ["--seed", str(r.randrange(2**32))] if r.random() < 0.5 else []
        line = [*line[:2], *rounds, *line[3:]]
    return files, line


def some_script(r):
    while True:
        files, line = random_runs.inputs_of(r.getrandbits(64), 0, some_kind(r))
        if line[0] == "step":
            return files


def some_trace(r):
    """The files of a trace of one of the versions: of a legal history, or with one change. With refetches it is of the
    last, but now and then."""
    files = some_script(r)
    settings = inputs.read_config(files["config.toml"])
    made = image.load(files["image.elf"], settings["ram"])
    machine = traces.OpenCore(made, settings, r, r.choice((0, 0, 0.2)))
    lines = traces.history_of(machine, inputs.read_script(files["script"]), r.choice(traces.MOST_LINES))
    least = traces.version_for(settings, lines) if r.random() < 0.9 else 1
    heads = traces.heads_of(settings, r.choice([version for version in (1, 2, 3, 3) if version >= least]))
    if len(heads) > 1 and r.random() < 0.2:
        heads = other_head(r, heads)
    elif lines and r.random() < 0.4:
        lines, _ = changed(r, lines, machine)
    del files["script"]
    files["trace"] = traces.text_of([*heads, *lines])
    if len(heads) > 1:
        files["config.toml"] = traces.config_text(traces.beside(r, settings))
    return files


def some_check(r):
    line = ["check", "image.elf", "trace", "--config", "config.toml", "--records"][: r.choice((5, 6))]
    return some_trace(r), line + r.choice(([], ["--story"], ["--story", "--all"]))


def some_why(r):
    """A trace, mostly one that is refused."""
    return some_trace(r), ["check", "image.elf", "trace", "--config", "config.toml", "--why"]


def some_history(r):
    return some_trace(r), ["script", "image.elf", "trace", "--config", "config.toml"]


def some_chart(r):
    first = r.choice((0, 0, 3, 40))
    line = ["chart", "image.elf", "trace", "--config", "config.toml", "--from", str(first)]
    line += ["--to", str(first + r.choice((0, 5, 300)))] if r.random() < 0.6 else []
    line += ["--width", str(r.choice((40, 80, 120, 300)))] if r.random() < 0.6 else []
    line += ["--hart", str(r.choice((0, 0, 1, 7, 8, 15)))] if r.random() < 0.2 else []
    return some_trace(r), line


def some_migration(r):
    return some_trace(r), ["migrate", "trace", "written", "--config", "config.toml"]


def some_schedule(r):
    files = some_script(r)
    settings = inputs.read_config(files["config.toml"])
    made = image.load(files["image.elf"], settings["ram"])
    del files["script"]
    files["order"] = random_runs.some_order(r, made, settings["harts"]).encode()
    return with_comments(r, files), ["schedule", "image.elf", "order", "--config", "config.toml"]


def some_outcomes(r):
    """A search, every second time without some reductions, which changes no outcome."""
    harts, file, watch, exists = outcomes_compare.inputs_of(r.getrandbits(64), 0)
    files = {"image.elf": file, "config.toml": f"harts = {harts}\nram = 4096\n".encode()}
    line = ["outcomes", "image.elf", "--config", "config.toml"]
    line += ["--watch", watch] if watch else []
    line += ["--exists", exists] if exists is not None else []
    without = r.choice(([], ["RX"], ["J"], ["RX", "J"], ["J", "RX"])) if r.random() < 0.5 else []
    return files, line + (["--without", ",".join(without)] if without else [])


def some_litmus(r):
    """A litmus test; where a branch goes back there may be more states than the program should look for."""
    test, loops = litmus_tests.some_test(r)
    line = ["litmus", "test.litmus"]
    if loops or r.random() < 0.15:
        line += ["--states", str(20000 if loops else r.choice((1, 4, 10, 30, 1000, 2**32 - 1)))]
    return {"test.litmus": test}, line


def some_explanation(r):
    files = some_script(r)
    del files["script"]
    return files, ["explain", "image.elf", "--config", "config.toml"]


def some_run(r):
    """A run by threads, which take few turns."""
    files, line = some_explanation(r)
    if r.random() < 0.7:
        files["config.toml"] = f"harts = {r.choice((1, 2, 16))}\nturns = {r.choice((0, 9, 300))}\n".encode()
    return files, ["run", *line[1:], "--trace", "written", "--counts"]


KINDS = {
    kind.name: kind
    for kind in (
        Kind("asks", some_asks, by_model),
        Kind("words", some_words, by_explanation),
        Kind("check", some_check, by_judge),
        Kind("why", some_why, by_why),
        Kind("schedule", some_schedule, by_schedule),
        Kind("script", some_history, by_history_script),
        Kind("chart", some_chart, by_chart),
        Kind("migrate", some_migration, by_migrate, writes="written"),
        Kind("outcomes", some_outcomes, by_every_order, "states "),
        Kind("litmus", some_litmus, by_litmus),
    )
}


# Those that are made with closed streams alone.
CLOSED_KINDS = {
    kind.name: kind
    for kind in (
        Kind("explain", some_explanation, None),
        Kind("run", some_run, None, writes="written", varies=True),
    )
}


def case(name, seed, number):
    """Case `number` of a seed and a kind."""
    r = random.Random(f"{name} {seed} {number}")
    kind = (KINDS | CLOSED_KINDS)[name]
    files, line = kind.make(r)
    if name != "outcomes" and r.random() < 0.5:
        hurt = r.choice(sorted(files))
        files[hurt] = damage.damaged(r, hurt, files[hurt])
    return Case(kind, number, files, line)
