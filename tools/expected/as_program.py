#!/usr/bin/env python3
"""The models under the words of the program, as far as they know them.

    tests/runs/run.sh tools/expected/as_program.py NAME..

tries runs of tests/runs by them: what a run by hand says is held against the models so. Not known are help, threads,
a terminal, and the options that each model doesn't name.
"""

import contextlib
import os
import signal
import sys

import chart
import counts
import history_script
import inputs
import judge
import judge_inputs
import judge_why
import migrate
import program
import retold
import schedule
import traces


def taken(words, option):
    """The words without an option and its value, and the value; None for none."""
    for at, word in enumerate(words):
        if word == option and at + 1 < len(words):
            return words[:at] + words[at + 2 :], words[at + 1]
        if word.startswith(f"{option}="):
            return words[:at] + words[at + 1 :], word[len(option) + 1 :]
    return words, None


def print_lines(out, err):
    sys.stdout.writelines(f"{text}\n" for text in out)
    sys.stdout.flush()
    sys.stderr.writelines(f"{text}\n" for text in err)


def by_model(words):
    """The core, the plain machine and the listing; a script's history also goes to a file."""
    words, name = taken(words, "--trace") if words[0] == "step" else (words, None)
    out, err, status = program.run(words)
    if name is not None and status in (0, 1, 3):
        line = inputs.read_line(words)
        settings = inputs.read_config(program.read_file(line["config"]) if line["config"] else b"")
        settings["harts"] = line["harts"] or settings["harts"]
        events = [text[5:] for text in out if text.startswith("done ")]
        with open(name, "wb") as file:
            file.write(traces.text_of([*traces.heads_of(settings, 3), *events]))
    print_lines(out, err)
    return status


def by_files(main, words):
    """A model whose words are two files and a configuration's name."""
    files, config, _ = judge.line_of(words, ())
    main(*files, *([config] if config is not None else []))
    return 0


def by_chart(words):
    """A chart, on standard output or in the file of a log."""
    words, name = taken(words, "--kanata")
    if name is None:
        return chart.main(words)
    with open(name, "w", encoding="utf-8") as file, contextlib.redirect_stdout(file):
        return chart.main([*words, "--kanata"])


def by_judge(words):
    """What `check` says; with `--why` of traces that are refused alone."""
    if "--story" in words:
        return retold.main(words)
    if "--why" in words:
        return judge_why.main([word for word in words if word not in ("--why", "--json", "--records", "--counts")])
    if "--counts" in words:
        return counts.main([word for word in words if word != "--counts"])
    return judge.main(words)


COMMANDS = {
    "check": by_judge,
    "chart": by_chart,
    "migrate": migrate.main,
    "script": lambda words: by_files(history_script.main, words),
    "schedule": lambda words: by_files(schedule.main, words),
}


def main(words):
    try:
        if words.count("-") - (words[:1] == ["migrate"] and words[2:3] == ["-"]) > 1:
            raise inputs.Refused("command line", 2)
        if words[:1] and words[0] in COMMANDS:
            return COMMANDS[words[0]](words[1:])
        return by_model(words)
    except (inputs.Refused, judge_inputs.Refused) as refused:
        sys.stdout.flush()
        said, status = (refused.why if isinstance(refused, inputs.Refused) else refused.said), refused.status
        print(f"smtsim: {said}", file=sys.stderr)
        return status


if __name__ == "__main__":
    signal.signal(signal.SIGPIPE, signal.SIG_DFL)
    sys.path.insert(0, os.path.dirname(os.path.abspath(__file__)))
    sys.exit(main(sys.argv[1:]))
