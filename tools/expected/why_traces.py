"""Holds `check --why` and `explain --trace` against the second judge, on random traces, nearly all of them changed.

    why_traces.py COUNT SEED FOLDER PROGRAM

Of each trace the program has to say what judge_why.py says, and refuse what the judge refuses; and the event that is
wanted in a place has to be one that the judge accepts there, in the core's history so far. It counts which rules and
which fields of which events were refused. What differs is kept in FOLDER.
"""

import collections
import os
import re
import subprocess
import sys

import judge
import judge_inputs
import judge_why
import traces

WANTED = re.compile(rb"^wanted: (?!none)(.*)$", re.M)


def by_judge(files):
    """What has to be printed, said and answered."""
    try:
        told, refused = why_in(files)
    except judge.Refused as early:
        told, refused = b"", early
    return None if refused is None else (told, f"smtsim: {refused.said}\n".encode(), refused.status)


def why_in(files):
    settings = judge_inputs.settings_of(files["config.toml"])
    found = judge_inputs.image_of(files["image.elf"], settings.ram)
    return judge_why.why_of_text(found, settings, files["trace"])


def by_program(name, folder, *words):
    words = [name, *words, "--config", "config.toml"]
    done = subprocess.run(words, cwd=folder, capture_output=True, check=False, timeout=60, stdin=subprocess.DEVNULL)
    return done.stdout, done.stderr, done.returncode


def accepts_wanted(files, told):
    """The judge accepts the wanted event in its place, and all before it."""
    wanted = WANTED.search(told)
    if wanted is None:
        return True
    line = int(re.match(rb"event [0-9]+, line ([0-9]+): ", told)[1])
    lines = files["trace"].split(b"\n")[: line - 1]
    text = b"".join(one + b"\n" for one in [*lines, wanted[1]])
    settings = judge_inputs.settings_of(files["config.toml"])
    found = judge_inputs.image_of(files["image.elf"], settings.ram)
    told = judge_inputs.trace_of(text)
    try:
        judge.judged(found, told.settings(settings), told.events)
    except judge.Refused:
        return False
    return True


def kinds_in(told):
    """What is told, for the count: the rule of an event or of a line, and the fields."""
    lines = told.decode("latin-1").split("\n")
    rule = lines[1].partition(":")[0] if len(lines) > 1 else "nothing"
    letter = re.match(r"event [0-9]+, line [0-9]+: (.)", lines[0])
    what = f"{letter[1]} {rule}" if letter else f"line {rule}"
    yield what
    for line in lines[2:]:
        field = re.match(r"([a-z ]+): the (trace says|line has)", line)
        if field:
            yield f"{what}: {field[1]}"


def differences(files, folder, name):
    wanted = by_judge(files)
    if wanted is None:
        return
    found = by_program(name, folder, "check", "image.elf", "trace", "--why")
    if found != wanted:
        yield "check --why says otherwise"
    if not accepts_wanted(files, found[0]):
        yield "what is wanted isn't accepted"
    if wanted[2] == 4:
        printed, *rest = by_program(name, folder, "explain", "image.elf", "--trace", "trace")
        if tuple(rest) != wanted[1:] or not printed.endswith(b"\ntrace refused\n" + wanted[0]):
            yield "explain --trace says otherwise"


def main(words):
    if len(words) != 4:
        print(__doc__, file=sys.stderr)
        return 2
    count, seed, folder, name = int(words[0]), words[1], words[2], os.path.abspath(words[3])
    said, wrong, refused, k = collections.Counter(), 0, 0, 0
    while refused < count:
        files, _, _, place = traces.made(seed, k)
        k += 1
        told = None if place is None else by_judge(files)
        if told is None or told[2] != 4:
            continue
        refused += 1
        said.update(kinds_in(told[0]))
        traces.write(f"{folder}/now", files)
        differing = list(differences(files, f"{folder}/now", name))
        if differing:
            wrong += 1
            traces.write(f"{folder}/{seed}.{k - 1}", files)
            print(f"trace {k - 1} of seed {seed}: {'; '.join(differing)}: {folder}/{seed}.{k - 1}", flush=True)
    for what, times in sorted(said.items()):
        print(f"{times:6} {what}")
    print(f"{refused} refused traces, {wrong} differ")
    return 1 if wrong else 0


if __name__ == "__main__":
    sys.exit(main(sys.argv[1:]))
