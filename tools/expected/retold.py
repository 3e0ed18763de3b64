"""What `check` prints of a trace with --story: the second judge's report, behind the story of its retirements.

    retold.py IMAGE TRACE --story [--all] [--config FILE] [--records] [--names] [--lines FILE]

The order of retirement is the harts of the records that the judge has read off the trace's events; its story is the
model's of the plain machine (story.py), which shares nothing with the judge. Names and lines stand behind rows and
records.
"""

import argparse
import sys

import image
import judge
import labels
import program
from judge_inputs import Refused


def main(words):
    line = argparse.ArgumentParser()
    line.add_argument("image")
    line.add_argument("trace")
    line.add_argument("--config")
    line.add_argument("--lines")
    for flag in ("story", "all", "records", "names"):
        line.add_argument(f"--{flag}", action="store_true")
    asked = line.parse_args(words)
    try:
        found, settings, events = judge.read(asked.image, asked.trace, asked.config)
        text, status = judge.judged(found, settings, events, asked.records)
    except Refused as refused:
        print(f"smtsim: {refused.said}", file=sys.stderr)
        return refused.status
    made = image.load(judge.contents(asked.image), settings.ram)
    asked_for = {"files": [asked.image], "names": asked.names, "lines": asked.lines, "all": asked.all}
    history = judge.Rules(settings, found, events)
    order = [fetched.hart for fetched, _ in history.records()]
    beside = program.labels_of(asked_for, made) or labels.Labels(b"", False, None)
    told = program.told_of(made, {"harts": settings.harts}, order, asked_for) if asked.story else []
    sys.stdout.writelines(f"{row}\n" for row in told)
    sys.stdout.writelines(f"{beside.marked('check', row)}\n" for row in text.splitlines())
    return status


if __name__ == "__main__":
    sys.exit(main(sys.argv[1:]))
