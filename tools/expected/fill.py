"""Fills in what a run of tests/runs/cases is to print, by the model here; or compares.

    python3 tools/expected/fill.py FILE..
        writes standard output, standard error and status into these files
    python3 tools/expected/fill.py --check
        names those runs whose `from` begins with tools/expected that the model denies; with --gate behind it, its last
        line is that of a gate

A line `%N text` of an expected output stands for N lines `text`.
"""

import glob
import os
import re
import shlex
import subprocess
import sys
import tempfile

import program

HERE = os.path.dirname(os.path.abspath(__file__))
RUNS = os.path.normpath(f"{HERE}/../../tests/runs")
SECTION = re.compile(r"-- (file \S+|prepare|do|stdout|expect|stderr)\Z")


def read(name):
    """The head of a run's file as pairs, and its sections as lists of lines."""
    head, sections, lines = {}, {}, None
    with open(name, encoding="utf-8") as file:
        for line in file.read().split("\n")[:-1]:
            if SECTION.match(line):
                lines = sections[line[3:]] = []
            elif lines is None:
                key, _, text = line.partition(": ")
                head[key] = text
            else:
                lines.append(line)
    return head, sections


def by_model(head, sections):
    """What the model prints for a run, in a folder with its files."""
    here = os.getcwd()
    with tempfile.TemporaryDirectory() as folder:
        os.symlink(f"{RUNS}/images", f"{folder}/images")
        for name, lines in sections.items():
            if name.startswith("file "):
                with open(f"{folder}/{name[5:]}", "w", encoding="utf-8") as file:
                    file.writelines(f"{line}\n" for line in lines)
        if "prepare" in sections:
            subprocess.run(["sh", "-c", "\n".join(sections["prepare"])], cwd=folder, check=True)
        os.chdir(folder)
        try:
            return program.run(shlex.split(head["words"]))
        finally:
            os.chdir(here)


def short(lines):
    """The same lines, four and more equal ones as one `%N text`."""
    found, at = [], 0
    while at < len(lines):
        end = at
        while end < len(lines) and lines[end] == lines[at]:
            end += 1
        found += [f"%{end - at} {lines[at]}"] if end - at > 3 else lines[at:end]
        at = end
    return found


def write(name, head, sections):
    out, err, status = by_model(head, sections)
    head["status"] = str(status)
    for part, lines in (("stdout", short(out)), ("stderr", err)):
        sections.pop(part, None)
        if lines:
            sections[part] = lines
    with open(name, "w", encoding="utf-8") as file:
        file.writelines(f"{key}: {text}\n" for key, text in head.items())
        for part, lines in sections.items():
            file.writelines(f"{line}\n" for line in [f"-- {part}", *lines])


def agrees(head, sections):
    out, err, status = by_model(head, sections)
    found = short(out), err, str(status)
    return found == (sections.get("stdout", []), sections.get("stderr", []), head["status"])


def main(names):
    if names[:1] == ["--check"]:
        known = {name: read(name) for name in sorted(glob.glob(f"{RUNS}/cases/*.run"))}
        mine = {
            name: run
            for name, run in known.items()
            if re.match(r"tools/expected(?!/)", run[0].get("from", "")) and "words" in run[0]
        }
        wrong = [name for name, run in mine.items() if not agrees(*run)]
        for name in wrong:
            print(f"the model says otherwise: {name}")
        print(f"{len(mine)} of {len(known)} runs are the model's, {len(wrong)} differ")
        if names[1:] == ["--gate"]:
            print(f"{len(mine) - len(wrong)} passed, {len(wrong)} failed")
        return 1 if wrong or not mine else 0
    for name in names:
        write(name, *read(name))
    return 0


if __name__ == "__main__":
    sys.exit(main(sys.argv[1:]))
