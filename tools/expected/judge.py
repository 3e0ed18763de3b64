"""A second judge of traces: says what `smtsim check` has to say, from the definitions alone.

    judge.py IMAGE TRACE [--config FILE] [--records]

It prints the report, or the refusal on standard error, and ends with the program's exit status.
Written from docs/FORMATS.md and docs/DEFINITIONS.md and the specs that this names: judge_inputs.py
reads the files, judge_words.py the instructions, judge_history.py says what a history says, by
filters and folds over its events, and judge_rules.py which event may come next. Nothing is shared
with the model of the core that makes the expected runs.
"""

import sys

from judge_inputs import MOST_EVENTS, Refused, Settings, image_of, settings_of, trace_of
from judge_rules import Rules

MOST_BYTES = 2**30


def spelled(number, digits):
    return "-" if number is None else f"{number:0{digits}x}"


def next_text(next):
    letter, number = next
    return f"s{number}" if letter == "s" else f"{letter}{number:08x}"


def record_line(fetched, effect):
    address, size, datum = effect.write or (None, 0, None)
    found = (str(fetched.hart), spelled(fetched.pc, 8), spelled(fetched.word, 8))
    made = (spelled(effect.value, 8), next_text(effect.next), spelled(address, 8))
    return " ".join((*found, *made, spelled(datum, 2 * size), spelled(effect.out, 2)))


def status_text(status):
    if status is None:
        return "going"
    return f"{'ended' if status[0] == 'e' else 'stopped'} {status[1]}"


def report(history, records):
    """The report's text, and the exit status that the harts give."""
    n = len(history.events)
    statuses = [history.status(n, h) for h in range(history.harts)]
    retired = history.records()
    lines = [record_line(*record) for record in retired] if records else []
    lines += [f"events {n}", f"retired {len(retired)}", f"lent {history.open_job_count()}"]
    lines += [f"hart {h} {status_text(status)}" for h, status in enumerate(statuses)]
    lines.append("output " + ("".join(f"{byte:02x}" for byte in history.output(n)) or "-"))
    if None in statuses:
        ended = 3
    else:
        ended = 0 if all(status == ("e", 0) for status in statuses) else 1
    return "".join(line + "\n" for line in lines), ended


def judged(image, settings, events, records=False):
    """The report on a history of a core, and the exit status; Refused where it isn't legal."""
    if len(events) > MOST_EVENTS:
        raise Refused("config refused", 2)
    history = Rules(settings, image, events)
    broken = history.first_refused()
    if broken is not None:
        raise Refused("event {} refused rule {}".format(*broken), 4)
    return report(history, records)


def read(image, trace, config):
    """The image of these files, the settings that the trace is judged by, and its events."""
    given = Settings() if config is None else settings_of(contents(config))
    found = image_of(contents(image), given.ram)
    told = trace_of(contents(trace))
    return found, told.settings(given), told.events


def contents(path):
    """The bytes of a file; `-` is standard input."""
    try:
        with open("/dev/stdin" if path == "-" else path, "rb") as file:
            data = file.read(MOST_BYTES + 1)
    except OSError as failed:
        raise Refused("file", 5) from failed
    if len(data) > MOST_BYTES:
        raise Refused("file", 5)
    return data


def line_of(words, flags=("--records",)):
    """The two files, the configuration's name and the flags of a command line that has no other options."""
    files, options, rest = [], {}, list(words)
    while rest:
        word, has_value, value = rest.pop(0).partition("=")
        if word == "-" or not word.startswith("-"):
            files.append(word + has_value + value)
        elif word == "--config" and word not in options and (has_value or rest):
            options[word] = value if has_value else rest.pop(0)
        elif word in flags and word not in options and not has_value:
            options[word] = True
        else:
            raise Refused("command line", 2)
    if len(files) != 2:
        raise Refused("command line", 2)
    return files, options.get("--config"), [flag for flag in flags if flag in options]


def main(words):
    try:
        (image, trace), config, records = line_of(words)
        text, status = judged(*read(image, trace, config), bool(records))
    except Refused as refused:
        print(f"smtsim: {refused.said}", file=sys.stderr)
        return refused.status
    try:
        sys.stdout.write(text)
        sys.stdout.flush()
    except OSError:
        sys.stdout = None
        print("smtsim: file", file=sys.stderr)
        return 5
    return status


if __name__ == "__main__":
    sys.exit(main(sys.argv[1:]))
