"""The histograms of `smtsim litmus --run`, held against the states that are listed, on a folder of tests.

    python3 tools/expected/litmus_histograms.py PROGRAM [COUNT] [FOLDER]
        `litmus TEST --run COUNT` (1000) of each test (examples/litmus)

Which counts come is up to the threads. What is certain: each line is one of the states that a second machine finds
(litmus.py), once and in their order, with a star where the condition holds of it by a second evaluator; no count is 0;
with the runs that the filter leaves out and those that haven't ended the counts are COUNT together; and all that is said
of the runs is what follows from these counts. A run has 20,000 events at the most, since a hart may wait for ever. Prints
how many tests agree, and ends with status 1 where one doesn't.
"""

import glob
import re
import subprocess
import sys
import tempfile

import litmus
import litmus_reading
from litmus_machine import final_states

CONFIGURATION = b"limit = 20000\n"
BAR = re.compile(r"(\d+) *([*:])>(.*)")


class Wrong(Exception):
    """What was printed isn't what had to come."""


def see(is_so, what):
    if not is_so:
        raise Wrong(what)


def lines_of(test, counts, left_out, not_ended):
    """All that is printed where so many runs came to each of these states, of which the first numbers are of a state and
    whether the condition holds of it."""
    quantifier, condition = test.question.quantifier, test.question.condition
    held = sum(count for count, _, holds in counts if holds)
    other = sum(count for count, _, holds in counts if not holds)
    is_so = {"exists": held > 0, "~exists": held == 0, "forall": other == 0}[quantifier]
    how = "Never" if held == 0 else "Always" if other == 0 else "Sometimes"
    positive, negative = (other, held) if quantifier == "~exists" else (held, other)
    name = litmus.shown(test.name)
    yield f"Test {name} {litmus.HEADS[quantifier]}"
    yield f"Histogram ({len(counts)} states)"
    for count, line, holds in counts:
        yield f"{count:<6}{'*' if holds else ':'}>{line}"
    yield "Ok" if is_so else "No"
    yield ""
    yield "Witnesses"
    yield f"Positive: {positive}, Negative: {negative}"
    validated = "is validated" if is_so else "is NOT validated"
    yield f"Condition {quantifier} ({litmus.condition_text(test, condition)}) {validated}"
    yield f"Observation {name} {how} {held} {other}"
    if left_out:
        yield f"Left out by the filter: {left_out}"
    if not_ended:
        yield f"Not ended: {not_ended}"


def number_behind(lines, what):
    """The number of a line that may be there."""
    found = [line.removeprefix(what) for line in lines if line.startswith(what)]
    see(len(found) <= 1, f"{what} twice")
    return int(found[0]) if found else 0


def see_test(program, file, runs):
    with open(file, encoding="latin-1") as text:
        test = litmus_reading.read(text.read())
    with tempfile.NamedTemporaryFile() as config:
        config.write(CONFIGURATION)
        config.flush()
        words = [program, "litmus", file, "--run", str(runs), "--config", config.name]
        done = subprocess.run(words, capture_output=True, check=False)
    said = done.stdout.decode("latin-1").splitlines()
    see(not done.stderr, done.stderr.decode())
    all_states = [
        (litmus.state_line(test, state), litmus.holds(test, test.question.condition, state[1]))
        for state in final_states(test, litmus.MOST_STATES).states
        if litmus.holds(test, test.question.filter, state[1])
    ]
    bars = [bar for bar in map(BAR.fullmatch, said) if bar]
    places = []
    for bar in bars:
        found = [place for place, (line, _) in enumerate(all_states) if line == bar[3]]
        see(found, f"no such state: {bar[3]}")
        places += found
    see(places == sorted(set(places)), "the order of the states")
    counts = [(int(bar[1]), *all_states[place]) for bar, place in zip(bars, places)]
    see(all(count > 0 for count, _, _ in counts), "a state that didn't come")
    left_out, not_ended = number_behind(said, "Left out by the filter: "), number_behind(said, "Not ended: ")
    see(sum(count for count, _, _ in counts) + left_out + not_ended == runs, "the counts don't add up")
    see(said == list(lines_of(test, counts, left_out, not_ended)), "what is said of the runs")
    see(done.returncode == (3 if not_ended else 0), f"status {done.returncode}")


def main(words):
    runs = int(words[1]) if len(words) > 1 else 1000
    folder = words[2] if len(words) > 2 else "examples/litmus"
    files = sorted(glob.glob(f"{folder}/*.litmus"))
    wrong = 0
    for file in files:
        try:
            see_test(words[0], file, runs)
        except Wrong as what:
            wrong += 1
            print(f"{file}: {what}")
    print(f"{len(files) - wrong} tests agree, {wrong} don't")
    return 1 if wrong or not files else 0


if __name__ == "__main__":
    sys.exit(main(sys.argv[1:]))
