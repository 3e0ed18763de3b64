"""The command line, the configuration, the script and the order, read as docs/FORMATS.md says."""

import re
import tomllib

import limits
from limits import ROLES

DEFAULTS = {
    "harts": 1, "extra": 64, "queue": 16, "ram": 65536, "limit": 1000000, "turns": 10**9,
    "actors": list(ROLES),
}
# How many files each command has, and which options beside `--config` and `--harts`; `list` hasn't the second one.
COMMANDS = {
    "step": (2, ("--records", "--show", "--looks", "--names", "--story", "--all")),
    "plain": (2, ("--records", "--names", "--story", "--all")),
    "list": (1, ("--names",)),
    "explain": (1, ()),
}
# The options with a file that a command has, of which one at most is given.
BESIDE = {"explain": ("--script", "--order")}
# The options with a number, and what it may be. With `--rounds` a command has no second file, and the
# others come with it alone.
NUMBERS = {
    "plain": {"--rounds": (1, 2**32 - 1), "--steps": (0, 2**32 - 1), "--seed": (0, 2**32 - 1)},
}


class Refused(Exception):
    """The line of a fault, and its exit status."""

    def __init__(self, why, status):
        super().__init__(why)
        self.why, self.status = why, status


def read_line(words):
    """What the words ask for: a command, its files and its options."""
    if not words or words[0] not in COMMANDS:
        raise Refused("command line", 2)
    command, rest = words[0], list(words[1:])
    count, flags = COMMANDS[command]
    numbers = NUMBERS.get(command, {})
    line = {"command": command, "files": [], "config": None, "harts": None, "beside": None}
    line |= dict.fromkeys((option[2:] for option in numbers), None)
    line |= {"records": False, "show": False, "looks": False, "names": False, "lines": None}
    line |= {"story": False, "all": False}
    seen = set()
    while rest:
        word = rest.pop(0)
        name, has_value, value = word.partition("=")
        if name == "--config" and name not in seen and (has_value or rest):
            line["config"] = value if has_value else rest.pop(0)
        elif name == "--lines" and command != "explain" and name not in seen and (has_value or rest):
            line["lines"] = value if has_value else rest.pop(0)
        elif name == "--harts" and command != "list" and name not in seen and (has_value or rest):
            line["harts"] = read_number(value if has_value else rest.pop(0), limits.HARTS[0], limits.HARTS[-1])
        elif name in BESIDE.get(command, ()) and not seen & set(BESIDE[command]) and (has_value or rest):
            line["beside"] = name[2:], value if has_value else rest.pop(0)
        elif name in numbers and name not in seen and (has_value or rest):
            line[name[2:]] = read_number(value if has_value else rest.pop(0), *numbers[name])
        elif word in flags and word not in seen:
            line[word[2:]] = True
        elif word == "-" or not word.startswith("-"):
            line["files"].append(word)
            continue
        else:
            raise Refused("command line", 2)
        seen.add(name)
    if "--rounds" in seen:
        count -= 1
    elif seen & set(numbers):
        raise Refused("command line", 2)
    if line["story"] and "--rounds" in seen or line["all"] and not line["story"]:
        raise Refused("command line", 2)
    if len(line["files"]) != count:
        raise Refused("command line", 2)
    return line


def read_number(text, low, high):
    """The number of an option, in its range."""
    if not re.fullmatch("0|[1-9][0-9]{0,19}", text) or not low <= int(text) <= high:
        raise Refused("command line", 2)
    return int(text)


def read_config(data):
    """The settings of a configuration's bytes; None is no configuration, and has the defaults."""
    try:
        given = tomllib.loads((data or b"").decode("utf-8"))
    except (UnicodeDecodeError, tomllib.TOMLDecodeError):
        raise Refused("config refused", 2) from None
    settings = {**DEFAULTS, **given}
    ok = set(settings) == set(DEFAULTS)
    for key, numbers in limits.NUMBERS.items():
        ok = ok and type(settings[key]) is int and settings[key] in numbers
    actors = settings["actors"]
    ok = ok and isinstance(actors, list) and len(actors) in limits.ACTORS
    ok = ok and all(actor in ROLES for actor in actors)
    if not ok:
        raise Refused("config refused", 2)
    return settings


SMALL, TIMES = r"(0|[1-9][0-9]?)", r"(?:\*([1-9][0-9]{0,4}|100000))?"
WORD = re.compile(rf"(?:([FICU]){SMALL}|([DRT]){SMALL}\.{SMALL}){TIMES}\Z")


NUMBER = re.compile(r"(?:0|[1-9][0-9]{0,2})\Z")


COMMENT = re.compile(r"(?<![^ \n])#[^\n]*")


def uncommented(data):
    """The text of a script or an order, a character for each byte, with blanks for its comments."""
    return COMMENT.sub(lambda found: " " * len(found.group()), data.decode("latin-1"))


def words_of(data):
    """The words of a script or an order: apart by spaces or newlines, and not of a comment."""
    return [word for word in re.split(r"[ \n]+", uncommented(data)) if word]


def read_order(data):
    """The harts of an order, which are numbers from 0 to 255."""
    words = words_of(data)
    for place, word in enumerate(words):
        if not NUMBER.match(word) or int(word) > 255:
            raise Refused(f"order {place} refused 4", 2)
    return [int(word) for word in words]


def read_script(data):
    """The asks of a script: (letter, actor, hart, how often)."""
    asks = []
    for place, word in enumerate(words_of(data), start=1):
        found = WORD.match(word)
        ask = found and ask_of(*found.groups())
        if not ask:
            raise Refused(f"script word {place} refused", 2)
        asks.append(ask)
    return asks


def ask_of(letter, actor, other, other_actor, hart, times):
    """The ask of a word; None where a core can't have its actor or its hart."""
    actor, hart = int(actor or other_actor), int(hart or 0)
    if actor >= limits.MOST_ACTORS or hart >= limits.MOST_HARTS:
        return None
    return letter or other, actor, hart, int(times or 1)
