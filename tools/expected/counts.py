"""The numbers of a trace's history, as `--counts` and `--json` have to tell them.

    counts.py IMAGE TRACE [--config FILE] [--json]

Written from docs/FORMATS.md and docs/DEFINITIONS.md over the second judge's definitions (judge_history.py): each
number is how many events, instructions or records pass a test. It prints the report and the numbers behind it, or
with --json the one object. A trace that isn't legal is refused as judge.py refuses it.
"""

import argparse
import json
import sys

import judge
from judge_inputs import Complete, Decode, Drop, Fetch, Issue, Refetch, Refused, Rename, Retire
from judge_words import op_of_word

KINDS = {
    "fetched": Fetch,
    "decoded": Decode,
    "renamed": Rename,
    "issued": Issue,
    "completed": Complete,
    "dropped": Drop,
    "retired": Retire,
}


def squash_reason(history, s):
    """Why the first event that squashed an instruction did so."""
    for n, e in enumerate(history.events):
        if history.squashes(n, s):
            if isinstance(e, Complete):
                return "mispredicted"
            if isinstance(e, Refetch):
                return "refetched"
            return {"e": "ended", "s": "stopped", "p": "replayed"}[e.effect.next[0]]
    return None


def is_mispredicted(history, s):
    n = len(history.events)
    o = history.completion(n, s)
    return o is not None and history.mispredicts(n, s, o.next)


def is_replayed(history, s):
    own = [(n, e) for n, e in enumerate(history.events) if isinstance(e, Retire) and e.seq == s]
    return any(history.is_replayed(n, s, e.effect) for n, e in own)


def numbers(history):
    """Each number under its word, in the order in which they are printed."""
    found = {word: sum(isinstance(e, kind) for e in history.events) for word, kind in KINDS.items()}
    fetched = [e.seq for e in history.events if isinstance(e, Fetch)]
    found["mispredicted"] = sum(is_mispredicted(history, s) for s in fetched)
    found["replayed"] = sum(is_replayed(history, s) for s in fetched)
    found["refetched"] = sum(isinstance(e, Refetch) for e in history.events)
    reasons = [squash_reason(history, s) for s in fetched]
    for reason in ("mispredicted", "replayed", "refetched", "ended", "stopped"):
        found[f"squashed-{reason}"] = reasons.count(reason)
    retired = [(f.hart, op_of_word(f.word).unit) for f, _ in history.records()]
    for hart in range(history.harts):
        for unit in ("alu", "mul", "mem"):
            found[f"hart-{hart}-{unit}"] = retired.count((hart, unit))
    return found


def hart_object(hart, status):
    if status is None:
        return {"hart": hart, "status": "going"}
    if status[0] == "e":
        return {"hart": hart, "status": "ended", "value": status[1]}
    return {"hart": hart, "status": "stopped", "cause": status[1]}


def as_object(history):
    n = len(history.events)
    found = {
        "events": n,
        "retired": len(history.records()),
        "lent": history.open_job_count(),
        "harts": [hart_object(h, history.status(n, h)) for h in range(history.harts)],
        "output": "".join(f"{byte:02x}" for byte in history.output(n)),
        "counts": numbers(history),
    }
    return json.dumps(found, separators=(",", ":"))


def main(words):
    line = argparse.ArgumentParser()
    line.add_argument("image")
    line.add_argument("trace")
    line.add_argument("--config")
    line.add_argument("--json", action="store_true")
    asked = line.parse_args(words)
    try:
        image, settings, events = judge.read(asked.image, asked.trace, asked.config)
        text, status = judge.judged(image, settings, events)
    except Refused as refused:
        print(f"smtsim: {refused.said}", file=sys.stderr)
        return refused.status
    history = judge.Rules(settings, image, events)
    if asked.json:
        print(as_object(history))
    else:
        print(text, end="")
        print("\n".join(f"{word} {number}" for word, number in numbers(history).items()))
    return status


if __name__ == "__main__":
    sys.exit(main(sys.argv[1:]))
