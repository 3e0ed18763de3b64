"""Changes of a trace, for traces.py: of one line, or of where it stands; or one event more; or of the lines before the
events, of a trace of version 2 or 3."""

import core
import limits

BAD_SPELLINGS = (
    lambda line: line.upper(), lambda line: line + " ", lambda line: line.replace(" ", "  ", 1),
    lambda line: line.replace(" ", "\t", 1), lambda line: line + "\r", lambda line: " " + line,
    lambda line: line.replace(" ", " 0", 1), lambda line: line[:-1], lambda line: "",
    lambda line: line + " -", lambda line: line.lower(), lambda line: line.replace("-", "+", 1),
)


def other_decimal(r, text, most):
    number = int(text) if text.isdigit() else 0
    near = (number + 1, number - 1, number + 2, r.randrange(40), r.randrange(most + 2))
    return str(max(0, r.choice(near)))


def other_hex(r, text):
    digits = 8 if text == "-" else len(text)
    number = 0 if text == "-" else int(text, 16)
    near = (number ^ 1 << r.randrange(4 * digits), number + 4, number + 1, 0, r.randrange(2**32))
    return f"{r.choice(near) % 16**digits:0{digits}x}"


def other_next(r, text):
    letter, number = text[0], int(text[1:], 16)
    if r.random() < 0.4:
        letter = r.choice("pes")
        number = number % 9 if letter == "s" else number
    elif letter == "s":
        number = r.randrange(10)
    else:
        return letter + other_hex(r, text[1:])
    return f"s{number}" if letter == "s" else f"{letter}{number:08x}"


def other_width(r, text):
    return text[-r.choice((2, 4, 8)) :] if text != "-" else r.choice(("00", "0000", "00000000"))


def other_field(r, letter, at, text):
    """Another text for a field, by the kind of the line and the field's place behind the letter."""
    optional = (letter, at) in {("F", 4), ("R", 2)} or (letter in "CT" and at in (2, 4, 5, 6))
    if optional and text != "-" and r.random() < 0.3:
        return "-"
    if letter in "CT" and at == 3:
        return other_next(r, text)
    if letter in "CT" and at == 6:
        return f"{r.randrange(256):02x}"
    if letter == "T" and at == 5 and r.random() < 0.4:
        return other_width(r, text)
    if at < 2 or (letter, at) in {("F", 2), ("R", 2)}:
        spelled = r.choice((limits.FIRST, limits.SECOND))
        mosts = {("R", 2): spelled.register, ("F", 1): spelled.hart}
        return other_decimal(r, text, spelled.actor if at == 0 else mosts.get((letter, at), 60))
    return other_hex(r, text)


def with_other_field(r, line):
    letter, *fields = line.split(" ")
    at = r.randrange(len(fields))
    fields[at] = other_field(r, letter, at, fields[at])
    return " ".join((letter, *fields))


HEADS = ("smt-trace 1", "smt-trace 2", "smt-trace 3", "smt-trace 4", "smt-trace 3 ", "smt-trace 03", "config", "")
NUMBERS = ("0", "00", "01", "1", "2", "4", "16", "17", "32", "64", "65", "528", "529", "1024", "-1", "-", "", "alu")


def other_size(r, text):
    """Another number for one of the sizes: mostly a near one."""
    return str(max(0, int(text) + r.choice((-1, 1, 2)))) if r.random() < 0.6 else r.choice(NUMBERS)


def other_role(r, roles):
    """Other roles: one more, one less, another, or one that is none."""
    at, way = r.randrange(len(roles)), r.randrange(5)
    role = r.choice((*limits.ROLES, "add", "ALU", "alu ", "", "0"))
    if way == 0:
        return roles[:at] + roles[at + 1 :]
    if way == 1:
        return roles[:at] + [role] * r.choice((1, 1, 27, 32, 33)) + roles[at:]
    return roles[:at] + [role] + roles[at + 1 :]


def other_head(r, lines):
    """The two lines before the events, one of them changed or gone, or both in each other's place."""
    first, second = lines
    word, *fields = second.split(" ")
    way = r.random()
    if way < 0.1:
        return [r.choice(HEADS), second]
    if way < 0.2:
        return r.choice(([first], [second], [second, first], [first, first, second], [first, second, second]))
    if way < 0.3:
        return [first, r.choice(BAD_SPELLINGS)(second)]
    if way < 0.6:
        at = r.randrange(3)
        fields[at] = other_size(r, fields[at])
    else:
        fields[3:] = other_role(r, fields[3:])
    return [first, " ".join((word, *fields))]


def with_other_letter(r, line, lines):
    """Another kind of event of the same actor and instruction, with fields to fit it; now and then
    without."""
    letter, head = r.choice("DRICXTG" if r.random() < 0.95 else "FZ"), " ".join(line.split(" ")[1:3])
    if r.random() < 0.1:
        return letter + line[1:]
    like = [other for other in lines if other[0] == letter and letter in "RCT"]
    rest = r.choice(like).split(" ")[3:] if like else ()
    return " ".join((letter, head, *rest))


def with_other_way_out(line, lines):
    """A refetch in place of a retirement, or a retirement with the fields of its completion in place of a refetch."""
    _, actor, number = line.split(" ")[:3]
    if line[0] == "T":
        return f"G {actor} {number}"
    done = next(other.split(" ") for other in lines if other[0] == "C" and other.split(" ")[2] == number)
    return f"T {actor} {number} {done[3]} {done[4]} - - {done[7]}"


def changed(r, lines, machine):
    """The lines of a trace's events with one change, and the place of the first that it touches."""
    letter = "G" if any(line[0] == "G" for line in lines) else "T"
    leaving = [k for k, line in enumerate(lines) if line[0] == letter]
    if leaving and r.random() < 0.08:
        place = r.choice(leaving)
        return [*lines[:place], with_other_way_out(lines[place], lines), *lines[place + 1 :]], place
    results = [k for k, line in enumerate(lines) if line[0] in "CTG"]
    places = results if results and r.random() < 0.4 else range(len(lines))
    place, lines, way = r.choice(places), list(lines), r.random()
    if way < 0.5:
        lines[place] = with_other_field(r, lines[place])
    elif way < 0.6:
        lines[place] = with_other_letter(r, lines[place], lines)
    elif way < 0.68:
        del lines[place]
    elif way < 0.72:
        lines.insert(place, lines[place])
        return lines, place + 1
    elif way < 0.8:
        far = r.choice((place + 1, place + 1, r.randrange(len(lines)))) % len(lines)
        lines[place], lines[far] = lines[far], lines[place]
        return lines, min(place, far)
    elif way < 0.84:
        lines[place] = r.choice(BAD_SPELLINGS)(lines[place])
    else:
        return one_more(r, lines, machine)
    return lines, place


def one_more(r, lines, machine):
    """The lines with an event that comes to mind, each kind as often as another, and its place."""
    found = list(next_ones(r, machine))
    letter = r.choice(sorted({line[0] for line in found}))
    return [*lines, r.choice([line for line in found if line[0] == letter])], len(lines)


def next_ones(r, machine):
    """Events that come to mind at the end of a history: many are allowed, and in each some rule,
    such as that of a full queue or an operand that is missing, may forbid it."""
    actor = r.randrange(len(machine.roles))
    yield f"X {actor} 0"
    for hart in machine.harts:
        yield from (f"D {actor} {f.number}" for f in hart.at("fetched")[:2])
        for f in hart.at("decoded")[:2]:
            free = machine.free() if f.instruction.rd else []
            yield f"R {actor} {f.number} {free[0] if free else '-'}"
        for f in hart.at("renamed"):
            yield from (f"I {k} {f.number}" for k in range(len(machine.roles)) if r.random() < 0.3)
        for f in hart.in_flight()[:2]:
            done = f.done or {"next": ("p", f.pc + 4 & core.MASK), "value": None}
            ended = f"{core.digits(done['value'])} {core.next_text(done['next'])}"
            yield f"T {actor} {f.number} {ended} - - -"
            yield f"G {actor} {f.number}"
    for actor, f in list(machine.jobs.items()):
        yield f"X {actor} {f.number}"
        yield f"C {actor} {f.number} - p{f.pc + 4 & core.MASK:08x} - - -"
