"""What `explain` says of a configuration and an image that are accepted, and of a script or an order beside them, as
docs/FORMATS.md says it. Of what is refused it knows words of scripts and orders alone.
"""

import os
import re
import struct

import core
import inputs
import limits
import symbols
from image import BASE
from plain import Plain

UNITS = ("alu", "mul", "mem")
LETTERS = "FDRICUT"
LISTED, SHOWN, LONG = 20, 40, 12
SCRIPT_FORM = (
    f"expected: `F`, `I`, `C` or `U` and an actor, 0 to {limits.MOST_ACTORS - 1}; or `D`, `R` or `T`, an actor, a point"
    f" and a hart, 0 to {limits.MOST_HARTS - 1}; behind it perhaps `*` and how often, 1 to 100000"
)
ORDER_FORM = "expected: a hart: a number 0 to 255 without leading zeros"
OTHER_SPACE = "usually: a tab or a carriage return: words are apart by spaces and newlines alone"


# ---- The configuration and the image


def of_config(settings):
    yield "config accepted"
    for key in ("harts", "extra", "queue", "ram", "limit", "turns"):
        yield f"{key} {settings[key]}"
    for actor, role in enumerate(settings["actors"]):
        yield f"actor {actor} {role}"
    for role in limits.ROLES:
        if role not in settings["actors"]:
            yield f"no actor is `{role}`: `run`, which needs one of each role, refuses this"


def of_image(made, file):
    yield "image accepted"
    yield f"ram {BASE:08x} to {BASE + made.ram - 1:08x}, {made.ram} bytes"
    table, count = int.from_bytes(file[28:32], "little"), int.from_bytes(file[44:46], "little")
    headers = [struct.unpack_from("<8I", file, table + 32 * k) for k in range(count)]
    for number, (_, _, at, _, in_file, size, flags, _) in enumerate(h for h in headers if h[0] == 1):
        letters = "".join(f" {letter}" for bit, letter in ((4, "R"), (2, "W"), (1, "X")) if flags & bit)
        yield f"segment {number} at {at:08x} to {at + size - 1:08x}, {in_file} bytes in the file, {size} in memory,{letters}"
    yield f"entry {made.entry:08x}"
    yield f"free behind the last segment {BASE + made.ram - max(at + len(data) for at, data, _ in made.segments)}"
    yield from of_names(file, made.entry)


def of_names(file, entry):
    try:
        found = symbols.names(file)
    except symbols.Damaged:
        yield "names none: the table of symbols is damaged"
        return
    if found is None:
        return
    functions, objects, labels = (sum(one[3] == kind for one in found) for kind in (symbols.FUNCTION, symbols.OBJECT, symbols.LABEL))
    yield f"names of functions {functions}, of objects {objects}, labels {labels}"
    at = symbols.name_at(found, entry)
    if at:
        name = "".join(f"\\x{byte:02x}" if byte < 32 or byte == 127 else chr(byte) for byte in at[0])
        yield f"the entry is `{name}{f'+{at[1]}' if at[1] else ''}`"


# ---- Words


def placed(data):
    """Each word of a text, as its bytes, with its line and its column; a column counts characters."""
    text = inputs.uncommented(data)
    for found in re.finditer(r"[^ \n]+", text):
        line = text.count("\n", 0, found.start()) + 1
        before = text[text.rfind("\n", 0, found.start()) + 1 : found.start()]
        column = sum(not 0x80 <= ord(c) < 0xC0 for c in before) + 1
        yield found.group().encode("latin-1"), line, column


def spelled(word):
    """A word as it is shown."""
    end = len(word) if len(word) <= SHOWN else SHOWN
    while end > SHOWN - 3 and end < len(word) and 0x80 <= word[end] < 0xC0:
        end -= 1
    text = "".join(f"\\x{c:02x}" if c < 32 or c == 127 else chr(c) for c in word[:end])
    # The bytes as they are; what is no UTF-8 is no text of a run.
    shown = text.encode("latin-1").decode("utf-8", "surrogateescape")
    return f"`{shown}`" + (f" and {len(word) - end} more bytes" if end < len(word) else "")


def at(place):
    word, line, column = place
    return f"line {line}, column {column}: {spelled(word)}"


def listed(kind, found):
    """Words that come to nothing: how many, and the first of them with their reasons."""
    yield f"{kind} {len(found)}"
    for place, why in found[:LISTED]:
        yield f"{at(place)}: {why}"
    if len(found) > LISTED:
        yield f"and {len(found) - LISTED} more"


def usual(word):
    if b"\t" in word or b"\r" in word:
        yield OTHER_SPACE
    elif b"#" in word:
        yield "usually: no space before a comment"


# ---- A script


def of_script(data, made, settings):
    """The lines, and why the script is refused, if it is."""
    places = list(placed(data))
    try:
        asks = inputs.read_script(data)
    except inputs.Refused as refused:
        number = int(refused.why.split()[2])
        place = places[number - 1]
        lines = [f"script refused {number}", at(place), *meant(place[0], settings), SCRIPT_FORM, *usual(place[0])]
        return lines, refused.why
    return ["script accepted", *of_asks(asks, places, made, settings)], None


def of_asks(asks, places, made, settings):
    roles, machine = settings["actors"], core.Core(made, settings)
    counts, steps, held = {}, 0, set()
    never, idle = [], []
    for (letter, actor, hart, times), place in zip(asks, places, strict=True):
        counts[actor, letter] = counts.get((actor, letter), 0) + times
        why = no_core_follows(letter, actor, hart, settings)
        if why is not None:
            never.append((place, why))
            continue
        done = 0
        while done < times and makes_step(machine, held, letter, actor, hart):
            done += 1
        steps += done
        if not done:
            idle.append((place, reason(machine, letter, actor, hart)))
    yield f"words {len(asks)}"
    yield f"asks {sum(counts.values())}"
    yield f"steps {steps}"
    for actor in range(limits.MOST_ACTORS):
        kinds = [f"{letter} {counts[actor, letter]}" for letter in LETTERS if (actor, letter) in counts]
        if actor < len(roles):
            yield f"actor {actor} {roles[actor]}: " + (", ".join(kinds) or "nothing")
        elif kinds:
            yield f"actor {actor} not there: " + ", ".join(kinds)
    yield from listed("words that this core never follows", never)
    yield from listed("words without a step", idle)


def no_core_follows(letter, actor, hart, settings):
    if actor >= len(settings["actors"]):
        return "no such actor"
    if letter in "DRT" and hart >= settings["harts"]:
        return f"hart {hart} isn't there"
    if letter in "ICU" and settings["actors"][actor] not in UNITS:
        return f"actor {actor} is no unit"
    return None


def makes_step(machine, held, letter, actor, hart):
    """Makes an ask, and whether it has made a step."""
    if letter == "U":
        return makes_step(machine, held, "I", actor, hart) and (makes_step(machine, held, "C", actor, hart) or True)
    if letter == "C":
        if actor not in held:
            return False
        held.discard(actor)
    if machine.is_full():
        return False
    calls = {"F": machine.fetch, "I": machine.issue, "C": machine.complete}
    calls |= {"D": machine.decode, "R": machine.rename, "T": machine.retire}
    event = calls[letter](actor, hart) if letter in "DRT" else calls[letter](actor)
    if event is not None and letter == "I":
        held.add(actor)
    return event is not None


def reason(machine, letter, actor, hart):
    """The first reason that holds of those of an ask."""
    if machine.is_full():
        return "the history is full"
    if letter == "F":
        going = [h for h in machine.harts if h.status == ("going",)]
        return "decode latch full of each hart that is going" if going else "no hart is going"
    if letter == "C":
        return f"actor {actor} has no job"
    if letter in "IU":
        return no_issue(machine, actor)
    status = machine.harts[hart].status[0]
    if status != "going":
        return f"hart {hart} has {status}"
    return {"D": no_decode, "R": no_rename, "T": no_retirement}[letter](machine, hart)


def no_decode(machine, h):
    return "rename latch full" if machine.harts[h].at("fetched") else f"nothing fetched of hart {h}"


def no_rename(machine, h):
    hart = machine.harts[h]
    if not hart.at("decoded"):
        return f"nothing decoded of hart {h}"
    if len(machine.queue()) >= machine.queue_size:
        return "queue full"
    flight = hart.in_flight()
    if len(flight) >= 64:
        return "64 instructions in flight"
    kind = hart.at("decoded")[0].instruction.kind
    if kind in ("load", "store") and sum(f.instruction.kind == kind for f in flight) >= 16:
        return f"16 {kind}s in flight"
    return "no free register"


def no_retirement(machine, h):
    flight = machine.harts[h].in_flight()
    if not flight:
        return f"nothing in flight of hart {h}"
    return f"oldest, number {flight[0].number}, is {flight[0].stage} and not completed"


def no_issue(machine, actor):
    if actor in machine.jobs:
        return f"actor {actor} has a job: number {machine.jobs[actor].number}"
    role = machine.roles[actor]
    waiting = [f for f in machine.queue() if f.instruction.unit == role]
    if not waiting:
        return f"nothing in the queue for {role}"
    oldest = waiting[0]
    sources = zip(oldest.sources, (oldest.instruction.rs1, oldest.instruction.rs2), strict=True)
    register, name = next((p, x) for p, x in sources if p is not None and machine.values[p] is None)
    writer = next(f for f in machine.harts[oldest.hart].in_flight() if f.register == register)
    waits = f"the oldest, number {oldest.number}, waits for x{name} of number {writer.number} ({writer.stage})"
    return f"nothing ready for {role}: {waits}"


def meant(word, settings):
    """The line of the word that was meant, if one is near."""
    text = word.split(b"*")[0].decode("latin-1")
    if not 0 < len(text) <= LONG or not all("!" <= c <= "~" for c in text):
        return
    letters = [c for c in LETTERS if c == text[0].upper()] or LETTERS
    best = None
    for letter in letters:
        for actor, role in enumerate(settings["actors"]):
            if letter in "ICU" and role not in UNITS:
                continue
            for hart in range(settings["harts"] if letter in "DRT" else 1):
                name = f"{letter}{actor}.{hart}" if letter in "DRT" else f"{letter}{actor}"
                far, alike = distance(text, name), len(os.path.commonprefix((text, name)))
                if far <= -(-max(len(text), len(name)) // 3) and (best is None or (far, -alike) < best[:2]):
                    best = far, -alike, name
    if best is not None and best[0]:
        yield f"`{text}`: did you mean `{best[2]}`?"


def distance(one, two):
    """How many letters are other, missing, too many or exchanged, where no letter is changed twice."""
    rows = [list(range(len(two) + 1))]
    for i, a in enumerate(one, 1):
        row = [i]
        for j, b in enumerate(two, 1):
            least = min(rows[-1][j] + 1, row[-1] + 1, rows[-1][j - 1] + (a != b))
            if i > 1 and j > 1 and a == two[j - 2] and one[i - 2] == b:
                least = min(least, rows[-2][j - 2] + 1)
            row.append(least)
        rows.append(row)
    return rows[-1][-1]


# ---- An order


def of_order(data, made, settings):
    """The lines, and why the order is refused, if it is."""
    places = list(placed(data))
    try:
        order = inputs.read_order(data)
    except inputs.Refused as refused:
        number = int(refused.why.split()[1])
        place = places[number]
        lines = [f"order refused {number} 4", at(place), *meant_hart(place[0]), ORDER_FORM, *usual(place[0])]
        return lines, refused.why
    machine, first, idle = Plain(made, settings["harts"]), None, []
    for number, hart in enumerate(order):
        why = machine.refusal(hart)
        if why is None:
            machine.step(hart)
            continue
        first = first or f"{number} refused {why}"
        idle.append((places[number], f"hart {hart} " + ("isn't there" if why == 3 else "has ended or stopped")))
    out = ["order accepted" if first is None else "order refused " + first.replace("refused ", "")]
    out.append(f"words {len(order)}")
    for hart in range(256):
        if hart < settings["harts"]:
            out.append(f"hart {hart}: {order.count(hart)}")
        elif hart in order:
            out.append(f"hart {hart} not there: {order.count(hart)}")
    out += listed("words without a step", idle)
    return out, None if first is None else f"order {first}"


def meant_hart(word):
    """The line of the hart that was meant, a number behind letters, signs or zeros."""
    found = re.search(rb"[1-9].*\Z", word, re.DOTALL)
    digits = found.group() if found else word[-1:]
    before = word[: len(word) - len(digits)]
    if all(0x21 <= byte <= 0x7E for byte in before) and re.fullmatch(rb"0|[1-9][0-9]{0,2}", digits) and int(digits) <= 255:
        yield f"{spelled(word)}: did you mean `{int(digits)}`?"
