"""The crates that crates.txt lists, and the words by which a command of the kit is told of them."""

import os
import re
import subprocess

ROOT = os.path.dirname(os.path.dirname(os.path.abspath(__file__)))


def kit():
    """The folder of the kit that `rt` is of."""
    return os.path.dirname(subprocess.run(["rt", "doc"], capture_output=True, text=True, check=True).stdout.strip())


class CrateList:
    """What each crate uses: `of_kit` of the kit's libraries, `uses` of the crates here."""

    def __init__(self):
        named = {}
        for line in open(f"{ROOT}/crates.txt", encoding="utf-8"):
            name, colon, names = line.partition("#")[0].partition(":")
            if colon:
                named[name.split()[0]] = names.split()
        self.of_kit = {name: ["std", *(it for it in uses if it not in named)] for name, uses in named.items()}
        self.uses = {name: [it for it in uses if it in named] for name, uses in named.items()}

    def reached(self, tops):
        """These crates and all that they stand on."""
        found, to_see = set(tops), [*tops]
        while to_see:
            for name in self.uses[to_see.pop()]:
                if name not in found:
                    found.add(name)
                    to_see.append(name)
        return found

    def as_source(self, tops):
        """The words that hand these crates, all that they stand on and the kit's libraries of all to a command as source."""
        names = sorted(self.reached(tops))
        words, folder = [], kit()
        for name in names:
            uses = ",".join(["core", *self.of_kit[name], *self.uses[name]])
            words += ["--lib", f"{name}:{uses}={ROOT}/crates/{name}/src/lib.rt"]
        libraries = sorted({"std", *(it for name in names for it in self.of_kit[name])})
        for library in libraries:
            uses = re.findall(r"^dep (\w+)$", open(f"{folder}/rlibs/{library}.rlib/format", encoding="utf-8").read(), re.M)
            libraries += [it for it in uses if it not in libraries]
            words += ["--lib", f"{library}:{','.join(uses)}={folder}/rattle/{library}/src/lib.rt"]
        return words
