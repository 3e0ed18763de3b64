"""What `smtsim script` prints, as docs/FORMATS.md says it: the script that makes a trace's history again.

    python3 tools/expected/history_script.py IMAGE TRACE [CONFIG]

The trace is judged first, by the second judge. Then the first event is told that a core would decide otherwise: a fetch
that doesn't predict what the static predictor does, or a rename that doesn't take the least free register. Else a line
stands for each event: its letter and actor, and behind a point the hart of a decode, a rename and a retirement; a
refetch is asked for as a retirement is.
"""

import sys

from instructions import predicted
from judge import judged, read
from judge_inputs import Complete, Decode, Drop, Fetch, Issue, Refetch, Refused, Rename, Retire
from judge_rules import Rules

LETTERS = {Fetch: "F", Decode: "D", Rename: "R", Issue: "I", Complete: "C", Drop: "C", Retire: "T",
           Refetch: "T"}


def decided_otherwise(history, n):
    """What is said of the event behind the first n, where a core decides it otherwise."""
    e = history.events[n]
    if isinstance(e, Fetch):
        guess = (e.pc + 4) % 2**32 if e.word is None else predicted(e.word, e.pc)
        return None if e.predicted == guess else f"event {n} predicted otherwise"
    if isinstance(e, Rename) and e.phys is not None:
        lower = any(history.claims(n, p) == 0 for p in range(e.phys))
        return f"event {n} not the least register" if lower else None
    return None


def lines(image, settings, events):
    """The lines of the script; Refused where there is none."""
    judged(image, settings, events)
    history = Rules(settings, image, events)
    for n in range(len(events)):
        otherwise = decided_otherwise(history, n)
        if otherwise is not None:
            raise Refused(otherwise, 4)
    harts = {e.seq: e.hart for e in events if isinstance(e, Fetch)}
    for e in events:
        named = f".{harts[e.seq]}" if isinstance(e, (Decode, Rename, Retire, Refetch)) else ""
        yield f"{LETTERS[type(e)]}{e.actor}{named}"


def main(image, trace, config=None):
    for line in lines(*read(image, trace, config)):
        print(line)


if __name__ == "__main__":
    try:
        main(*sys.argv[1:])
    except Refused as refused:
        print(f"smtsim: {refused.said}", file=sys.stderr)
        sys.exit(refused.status)
