"""What `smtsim --help` and `smtsim help COMMAND` say, row by row: commands, files and options, each with its text."""

import re
import subprocess
from dataclasses import dataclass, field

HEADINGS = {"Commands:": "commands", "Arguments:": "files", "Options:": "options"}
ROW = re.compile(r"^ {2,}(\S.*?)(?: {2,}(\S.*))?$")
CHOICES = re.compile(r" *\[possible values: ([^\]]*)\]")


@dataclass
class Row:
    """A row: the name of a command or file, or the words of an option; what stands for its value; its text; what the value may be."""

    words: list
    value: str = ""
    text: str = ""
    choices: list = field(default_factory=list)

    @property
    def name(self):
        """The longest of its words: --help of -h and --help."""
        return max(self.words, key=len)


@dataclass
class Help:
    """One page of help."""

    about: str
    usage: str = ""
    commands: list = field(default_factory=list)
    files: list = field(default_factory=list)
    options: list = field(default_factory=list)
    behind: list = field(default_factory=list)


def row(left, text):
    """A row of its two columns."""
    choices = CHOICES.search(text)
    text = CHOICES.sub("", text)
    value = re.search(r"[<\[]([A-Z]+)[>\]]", left)
    words = re.sub(r"[<\[][A-Z]+[>\]](?:\.\.\.)?", "", left).replace(",", " ").split()
    return Row(words or [value.group(1)], value.group(1) if value else "", text, choices.group(1).split(", ") if choices else [])


def page(text):
    """A page of help, taken apart. What follows the options is kept line by line."""
    lines = text.rstrip("\n").split("\n")
    found, here = Help(lines[0]), None
    for number, line in enumerate(lines[1:], 1):
        if line.startswith("Usage: "):
            # The name that it was started by is nobody's concern.
            found.usage = re.sub(r"^Usage: \S+", "smtsim", line)
        elif line in HEADINGS:
            here = getattr(found, HEADINGS[line])
        elif here is not None and line:
            match = ROW.match(line)
            deeper = here and len(line) - len(line.lstrip()) > 8 and not line.lstrip().startswith(("-", "<", "["))
            if deeper:
                here[-1].text += " " + line.strip()
            else:
                here.append(row(match.group(1), match.group(2) or ""))
        elif here is found.options and not line:
            found.behind = lines[number + 1 :]
            break
    return found


def of(program):
    """The page of the program, and by its name that of each command, in their order."""

    def said(*words):
        return page(subprocess.run([program, *words], capture_output=True, text=True, check=True).stdout)

    whole = said("--help")
    names = [it.name for it in whole.commands if it.name != "help"]
    return whole, {name: said("help", name) for name in names}
