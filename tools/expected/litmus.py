"""What `smtsim litmus` prints: every final state of a litmus test.

    python3 tools/expected/litmus.py TEST [--states N]
        what the program prints on standard output and standard error, and its exit status

A second reader of the tests, and a second machine: each hart makes one whole instruction at a time, in all orders.
The program looks at fewer states for the same answer. This knows bounds of their number; where N lies between these it
says so on standard error, with status 4. Written from docs/FORMATS.md.
"""

import sys

import litmus_reading
from instructions import MASK, signed
from litmus_machine import AT_ITS_END, TooMany, bounds, final_states, number_of, numbers_of
from litmus_places import Address, address_text, number_text
from litmus_words import Refused, place

MOST_STATES = 1000000
# How much each kind of condition binds, what stands between its parts, and how much its first and other parts have to
# bind to stand without parentheses.
BINDS = {"iff": 0, "implies": 1, "or": 2, "and": 3, "not": 4, "term": 4, "true": 4}
SIGNS = {"iff": " <=> ", "implies": " => ", "or": " \\/ ", "and": " /\\ "}
LEAST = {"iff": (0, 1), "implies": (2, 1), "or": (2, 2), "and": (3, 3)}
HEADS = {"exists": "Allowed", "~exists": "Forbidden", "forall": "Required"}


def observed_text(what):
    if isinstance(what, tuple):
        return f"{what[0]}:x{what[1]}"
    return what if what.endswith("]") else f"[{what}]"


def state_line(test, state):
    causes, numbers = state
    sizes, parts, arrays = numbers_of(test), [], {}
    for what, number in zip(test.question.observed, numbers):
        is_register = isinstance(what, tuple)
        kind = (4, True) if is_register else (sizes[what].size, sizes[what].signed)
        text, name = number_text(test.declared, number, *kind), "" if is_register else what.partition("[")[0]
        if name not in test.question.whole:
            parts.append(f"{observed_text(what)}={text};")
            continue
        if name not in arrays:
            arrays[name] = []
            parts.append(name)
        arrays[name].append(text)
    parts = [f"{part}={{{','.join(arrays[part])}}};" if part in arrays else part for part in parts]
    parts += [f"P{k} stopped {cause};" for k, cause in enumerate(causes) if cause != AT_ITS_END]
    return " ".join(parts)


def shown(text):
    """A text of the input: each control character as its two hexadecimal digits."""
    return "".join(f"\\x{ord(c):02x}" if c < " " or c == "\x7f" else c for c in text)


def condition_text(test, condition):
    kind, *parts = condition
    if kind == "true":
        return "true"
    if kind == "term":
        what, value = parts
        is_address = isinstance(value, Address)
        text = address_text(test.declared, value.byte) if is_address else str(signed(value & MASK))
        return f"{observed_text(what)}={text}"
    if kind == "not":
        return "not " + wrapped(test, parts[0], BINDS["not"])
    first, others = LEAST[kind]
    return SIGNS[kind].join(wrapped(test, part, others if k else first) for k, part in enumerate(parts))


def wrapped(test, condition, least):
    text = condition_text(test, condition)
    return f"({text})" if BINDS[condition[0]] < least else text


def holds(test, condition, numbers):
    kind, *parts = condition
    if kind == "true":
        return True
    if kind == "term":
        what, value = parts
        size = 4 if isinstance(what, tuple) else numbers_of(test)[what].size
        return numbers[test.question.observed.index(what)] == number_of(value) & (1 << 8 * size) - 1
    if kind == "not":
        return not holds(test, parts[0], numbers)
    truths = [holds(test, part, numbers) for part in parts]
    if kind == "implies":
        return not truths[0] or truths[1]
    return truths[0] == truths[1] if kind == "iff" else (all if kind == "and" else any)(truths)


def lines(test, found):
    quantifier, condition = test.question.quantifier, test.question.condition
    states = [state for state in found.states if holds(test, test.question.filter, state[1])]
    held = sum(holds(test, condition, numbers) for _, numbers in states)
    others = len(states) - held
    is_as_asked = {"exists": held > 0, "~exists": held == 0, "forall": others == 0}[quantifier]
    how = "Never" if held == 0 else "Always" if others == 0 else "Sometimes"
    positive, negative = (others, held) if quantifier == "~exists" else (held, others)
    yield f"Test {shown(test.name)} {HEADS[quantifier]}"
    yield f"States {len(states)}"
    yield from (state_line(test, state) for state in states)
    yield "Ok" if is_as_asked else "No"
    yield "Witnesses"
    yield f"Positive: {positive} Negative: {negative}"
    yield f"Condition {quantifier} ({condition_text(test, condition)})"
    yield f"Observation {shown(test.name)} {how} {held} {others}"
    yield "stuck" if found.is_stuck else "always can end"


def said(data, most=MOST_STATES, patience=MOST_STATES):
    """What is said of a test's bytes: standard output, standard error, the exit status. Of more than `patience` states
    that are looked at here it says nothing: TooMany."""
    text = data.decode("latin-1")
    try:
        test = litmus_reading.read(text)
    except Refused as refused:
        line, column = place(text, refused.at)
        return "", f"smtsim: litmus refused {line}:{column}: {refused.what}\n", 2
    found = final_states(test, patience)
    least, greatest = (0, found.looked_at) if found.looked_at <= most else bounds(test)
    if least > most:
        return f"not complete: more than {most} states\n", "", 3
    if greatest > most:
        raise TooMany
    return "".join(f"{line}\n" for line in lines(test, found)), "", 0


def test_file(name):
    if name == "-":
        return sys.stdin.buffer.read()
    with open(name, "rb") as file:
        return file.read()


def main(words):
    options = dict(zip(words[1::2], words[2::2]))
    most = int(options.get("--states", MOST_STATES))
    try:
        out, err, status = said(test_file(words[0]), most)
    except OSError:
        out, err, status = "", "smtsim: file\n", 5
    except TooMany:
        out, err, status = "", "litmus.py: too many states, or a word of code is read\n", 4
    sys.stdout.buffer.write(out.encode("latin-1"))
    sys.stderr.write(err)
    return status


if __name__ == "__main__":
    sys.exit(main(sys.argv[1:]))
