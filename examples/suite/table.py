#!/usr/bin/env python3
"""Makes the table of the suite.

    table.py PROGRAM [--states N] [--seconds N] [--harts LIST] [--rounds N] [--only LIST] [--tools gnu|llvm]

PROGRAM is a `smtsim`. Of each program of the suite and each twin, as their heads have them (README.md), the image is
made for each number of harts (2,3,4), by make.sh, and `outcomes` is asked the question of the head. What is printed is
a table in markdown, a row for each: the verdict, and for each number of harts outcomes; states; seconds of a processor;
and the peak of memory in MB, of one search. A search ends at --states states (1,000,000) or --seconds seconds (60).
--rounds says how many rounds all make that don't say so in their lines. It ends with 1 where a verdict isn't the one
that the head says, and says which on standard error. With --list the questions are printed, for the first of the
numbers of harts, and nothing is made.
"""

import argparse
import itertools
import os
import re
import shlex
import subprocess
import sys
import tempfile

HERE = os.path.dirname(os.path.abspath(__file__))
JOINTS = {"--forall": " & ", "--never": " | "}


def fibonacci(n):
    first, second = 0, 1
    for _ in range(n):
        first, second = second, first + second
    return first


def number(text, names):
    """What an expression of numbers and names comes to."""
    return eval(text, {"__builtins__": {}, "FIB": fibonacci}, names)  # pylint: disable=eval-used


def values_of(text, names):
    """The names that `for H in 1..HARTS, K in 1..ROUNDS` gives, each time; `H < K in 1..4` gives pairs."""
    loops = []
    for part in text.split(", "):
        left, first, last = re.fullmatch(r"(.+) in (.+)\.\.(.+)", part).groups()
        own = left.split(" < ")
        span = range(number(first, names), number(last, names) + 1)
        loops.append([dict(zip(own, each)) for each in itertools.combinations(span, len(own))])
    for each in itertools.product(*loops):
        yield {name: value for part in each for name, value in part.items()}


class Search:
    """One line of a head: a program or a twin of it, with what is asked and what should be answered."""

    def __init__(self, program, kind, text, asked, rounds):
        words, _, loop = text.partition(" for ")
        words = shlex.split(words)
        flags = [word[2:] for word in words if word.startswith("-D")]
        question = [word for word in words if not word.startswith("-D")] or asked
        self.flags = dict(flag.partition("=")[::2] for flag in flags)
        self.program = program
        self.twin = flags[0].lower() if flags else None
        self.is_claim = kind == "Claim"
        self.wanted = "no" if kind in ("Wrong", "Claim") else "yes"
        self.question = question if not loop else question + [loop]
        self.rounds = int(self.flags.get("ROUNDS", rounds))

    def harts(self, those):
        """For which numbers of harts it is made."""
        return [int(self.flags["HARTS"])] if "HARTS" in self.flags else those

    def asks(self, harts):
        """The words of the question for so many harts."""
        option, *rest = self.question
        if not rest:
            return [option]
        names = {"HARTS": harts, "ROUNDS": self.rounds}
        each = values_of(rest[1], names) if len(rest) > 1 else [{}]
        parts = []
        for own in each:
            part = re.sub(r"\{(.+?)\}", lambda it, own=own: str(number(it[1], names | own)), rest[0])
            parts += [part] if part not in parts else []
        return [option, JOINTS[option].join(parts)]

    def name(self):
        name = f"`{self.program}`" + (f" `-D{self.twin.upper()}`" if self.twin else "")
        return name + (", the claim" if self.is_claim else "")

    def image(self):
        return self.program + (f".{self.twin}" if self.twin else "") + ".elf"


def head_of(program, rounds):
    """The numbers of harts of a program and its searches, from the comment at its head."""
    with open(f"{HERE}/{program}.c", encoding="utf-8") as it:
        source = it.read()
    own = re.search(r"^#define ROUNDS (\d+)$", source, re.M)
    rounds = rounds or (own[1] if own else 1)
    lines = re.sub(r"\n {6,}", " ", source[: source.index("*/")])
    harts, searches, asked = [], [], None
    for kind, text in re.findall(r"^   (Harts|Asked|Right|Wrong|Claim): (.*)$", lines, re.M):
        if kind == "Harts":
            harts = [int(word) for word in text.split(", ")]
            continue
        search = Search(program, kind, text.split(": ")[0], asked, rounds)
        asked = asked or search.question
        searches.append(search)
    return harts, searches


def run(words, seconds):
    """What a search prints, its seconds of a processor, or none where it took more than it may, and its peak in MB."""
    with tempfile.NamedTemporaryFile("r") as measured:
        # By `time`, which is small: a process that this one started would count the memory of both.
        limited = ["sh", "-c", f'ulimit -t {seconds}; exec "$@"', "sh", *words]
        timed = ["/usr/bin/time", "-q", "-f", "%U %S %M %x", "-o", measured.name, *limited]
        said = subprocess.run(timed, stdin=subprocess.DEVNULL, stdout=subprocess.PIPE, text=True, check=False).stdout
        user, system, peak, status = measured.read().split()
    if status not in ("0", "1", "3"):  # of one that met its limit `time` says 0
        sys.exit(f"table.py: {shlex.join(words)} ended with {status}")
    took = float(user) + float(system)
    return said, None if took >= seconds else took, int(peak) / 1024


class Found:
    """What one search has found, and what it took."""

    def __init__(self, said, took, peak, limits):
        outcomes, states = (re.search(rf"^{word} (\d+)$", said, re.M) for word in ("outcomes", "states"))
        answer = re.search(r"^(?:forall|never|never-stuck): (\w+)", said, re.M)
        whole = re.search("^complete$", said, re.M)
        self.answer = answer[1] if answer else "unknown"
        self.verdict = self.answer + (", stuck" if re.search("^stuck$", said, re.M) else "")
        count = f"{int(states[1]):,}" if whole else f"more than {limits.states:,}" if states else "-"
        ends = outcomes[1] if whole else f"{outcomes[1]} found" if outcomes else "-"
        time = f"{took:.2f}" if took is not None else f"more than {limits.seconds}"
        self.cell = f"{ends}; {count}; {time}; {peak:.0f}"


def arguments():
    parser = argparse.ArgumentParser(description="Makes the table of the suite.", allow_abbrev=False)
    parser.add_argument("program", metavar="PROGRAM", nargs="?")
    parser.add_argument("--states", type=int, default=1000000)
    parser.add_argument("--seconds", type=int, default=60)
    parser.add_argument("--harts", default="2,3,4")
    programs = sorted(name[:-2] for name in os.listdir(HERE) if name.endswith(".c"))
    parser.add_argument("--only", default=",".join(programs))
    parser.add_argument("--rounds", type=int)
    parser.add_argument("--tools", choices=["gnu", "llvm"], default="gnu")
    parser.add_argument("--list", action="store_true")
    return parser.parse_args()


def made_images(programs, harts, limits, room):
    """The folder with the images for so many harts."""
    environment = os.environ | {"HARTS": str(harts), "OUT": f"{room}/{harts}", "ONLY": " ".join(programs)}
    environment |= {"ROUNDS": str(limits.rounds)} if limits.rounds else {}
    subprocess.run([f"{HERE}/make.sh", limits.tools], env=environment, check=True, stderr=subprocess.DEVNULL)
    return f"{room}/{harts}/{limits.tools}"


def found_by(search, folders, limits):
    """What the searches of a line find, for each number of harts that it is for."""
    for harts, folder in folders.items():
        words = [limits.program, "outcomes", f"{folder}/{search.image()}", "--harts", str(harts)]
        words += ["--states", str(limits.states), *search.asks(harts)]
        yield harts, Found(*run(words, limits.seconds), limits)


def questions(heads, wanted):
    """Prints what is asked, of the first number of harts."""
    for possible, searches in heads.values():
        for search in searches:
            harts = next((own for own in search.harts(possible) if own in wanted), None)
            if harts:
                print(search.image(), f"--harts {harts}", shlex.join(search.asks(harts)), f"# {search.wanted}")


def main():
    limits = arguments()
    wanted = [int(word) for word in limits.harts.split(",")]
    heads = {program: head_of(program, limits.rounds) for program in limits.only.split(",")}
    if limits.list:
        return questions(heads, wanted)
    if not limits.program:
        sys.exit("table.py: which PROGRAM?")
    wrong = 0
    print("| Program | Verdict |" + "".join(f" {harts} harts |" for harts in wanted))
    print("|---|---|" + "---|" * len(wanted))
    with tempfile.TemporaryDirectory() as room:
        folders = {harts: made_images(heads, harts, limits, room) for harts in wanted}
        for possible, searches in heads.values():
            for search in searches:
                own = {harts: folder for harts, folder in folders.items() if harts in search.harts(possible)}
                found = dict(found_by(search, own, limits))
                verdicts = list(dict.fromkeys(one.verdict for one in found.values()))
                cells = [found[harts].cell if harts in found else "" for harts in wanted]
                if found:
                    print("| " + " | ".join([search.name(), "; ".join(verdicts), *cells]) + " |", flush=True)
                for harts, one in found.items():
                    if one.answer not in (search.wanted, "unknown"):
                        wrong += 1
                        print(f"table.py: {search.name()}, {harts} harts: not {search.wanted}", file=sys.stderr)
    return 1 if wrong else 0


if __name__ == "__main__":
    sys.exit(main())
