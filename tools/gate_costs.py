#!/usr/bin/env python3
"""What the gate costs, crate by crate.

tools/gate_costs.py watch LOG COMMAND ..   runs the command (.ci/run), and writes into LOG what each check of the prover took
tools/gate_costs.py table LOG ..           prints the table of docs/GATE.md that these logs say, of each crate what the last one has

The gate prints no times. So each half second this looks at the prover's processes: of which crate each is, and whether it proves the crate,
its tests or an edit of it, and how many seconds of a processor it has taken. A line of the log is a check: CRATE KIND SECONDS.
"""

import collections
import os
import re
import subprocess
import sys
import time

TICKS = os.sysconf("SC_CLK_TCK")
KINDS = ["proof", "tests", "edit"]
COLUMNS = 3


def stat_of(process):
    """What the system says of a process, from its state on: its parent comes second."""
    with open(f"/proc/{process}/stat", encoding="utf-8", errors="replace") as it:
        return it.read().rpartition(")")[2].split()


def is_below(process, top):
    """Whether the one process was started by the other, or by one that was."""
    while process not in ("0", top):
        process = stat_of(process)[1]
    return process == top


def checks_now(top):
    """The prover's processes below another, each by its number and start: the crate, the kind of check, and the seconds so far, with those of
    its children that have ended."""
    found = {}
    for process in filter(str.isdigit, os.listdir("/proc")):
        try:
            with open(f"/proc/{process}/cmdline", encoding="utf-8", errors="replace") as it:
                words = it.read().split("\0")
            if "--crate-name" not in words or not words[0].endswith("/rattle") or not is_below(process, top):
                continue
            fields = stat_of(process)
            is_edit = "/rt-edit-" in os.readlink(f"/proc/{process}/cwd")
        except OSError:
            continue
        crate = words[words.index("--crate-name") + 1]
        kind = "edit" if is_edit else "tests" if "--test" in words else "proof"
        found[process, fields[19]] = (crate, kind, sum(map(int, fields[11:15])) / TICKS)
    return found


def watch(log, command):
    """Runs the command. Each check is written once it isn't there any more, so a run that is cut off has left those that ended."""
    seen, running = {}, subprocess.Popen(command)
    with open(log, "w", encoding="utf-8") as it:
        while seen or running.poll() is None:
            now = checks_now(str(running.pid)) if running.poll() is None else {}
            for ended in seen.keys() - now.keys():
                crate, kind, seconds = seen.pop(ended)
                print(crate, kind, f"{seconds:.1f}", file=it, flush=True)
            seen.update(now)
            time.sleep(0.5)
    return running.returncode


def read_logs(logs):
    """Of each crate the seconds of each kind, and how many edits there were: by the last log that has a check of that kind."""
    seconds, edits = {}, {}
    for log in logs:
        of_log, counted = collections.Counter(), collections.Counter()
        for line in open(log, encoding="utf-8"):
            crate, kind, taken = line.split()
            of_log[crate, kind] += float(taken)
            counted[crate] += kind == "edit"
        seconds.update(of_log)
        edits.update({crate: count for crate, count in counted.items() if count})
    return seconds, edits


def cells(crate, seconds, edits):
    """What one crate takes in a row of the table."""
    proof, tests, of_edits = (seconds.get((crate, kind), 0) for kind in KINDS)
    own = f"{proof:.0f} + {tests:.0f}" if tests else f"{proof:.0f}"
    return f"`{crate}` | {own} | {of_edits:.0f} ({edits.get(crate, 0)})"


def table(logs):
    seconds, edits = read_logs(logs)
    root = os.path.dirname(os.path.dirname(os.path.abspath(__file__)))
    listed = re.findall(r"^(\w+)[^:#\n]*:", open(f"{root}/crates.txt", encoding="utf-8").read(), re.M)
    found = [cells(crate, seconds, edits) for crate in listed if any((crate, kind) in seconds for kind in KINDS)]
    rows = -(-len(found) // COLUMNS)
    print(f"|{' Crate | Proof | Edits |' * COLUMNS}\n|{'---|---|---|' * COLUMNS}")
    for row in range(rows):
        print("| " + " | ".join((found[row::rows] + [" | | "] * COLUMNS)[:COLUMNS]) + " |")
    proof, tests, of_edits = (sum(seconds.get((crate, kind), 0) for crate in listed) for kind in KINDS)
    print(f"\nIn all: proofs {proof / 60:.0f}, tests {tests / 60:.0f}, {sum(edits.values())} edits {of_edits / 60:.0f} processor minutes.")
    return 0


def main():
    role, log, *command = sys.argv[1:] if len(sys.argv) > 2 else ["", ""]
    if role == "watch" and command:
        return watch(log, command)
    if role == "table":
        return table([log, *command])
    print(__doc__, file=sys.stderr)
    return 2


sys.exit(main())
