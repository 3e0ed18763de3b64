#!/usr/bin/env python3
"""interrupt_calls.py PROGRAM [--closed] [NAME ..]: makes runs of tests/runs while its calls are interrupted.

Each read and write of the program may be interrupted, or do but a part of what it could, and that
is as if nothing had happened: each run has to print what its file says, and end so. The runs are
made three times: with every second read and write interrupted before it has done anything (EINTR),
with each doing 1 to 7 bytes of what it could, and with both. They are those of RUNS, or those named;
`all` stands for all but those of LEFT_OUT. Prints what differs, and a line for each of the three
ways. Ends with 1 where a run differed.

With `--closed` the runs are those of tools/every_command.py, of each command, or those named of them;
each is made with standard input, output and error closed, alone and together, and has to do what it
does with these streams closed and nothing interrupted.

The library that interrupts is tools/interrupt_calls.c, built by the machine's own compiler: no part
of the program.
"""

import glob
import os
import shlex
import subprocess
import sys
import tempfile

from every_command import ROOT, STREAMS, Kind, prepared, told, without_a_run
from every_command import RUNS as COMMANDS

SUITE = os.path.join(ROOT, "tests", "runs")

# Each command, each file that is read or written, standard input, a script that is typed, devices
# and a file that take no more.
RUNS = """
    first_example step_show records_5000 script_of_1_mb trace_first_example trace_of_60000_events
    trace_full_device trace_takes_a_part check_1_mb check_first_wrong_line plain_order_of_1_mb
    plain_rounds_c_programs schedule_of_10000_words history_first_example chart_picture chart_kanata
    list_all_kinds explain_both_accepted outcomes_witness litmus_svg litmus_image_step input_script
    migrate_first_example migrate_long migrate_takes_a_part migrate_from_standard_input
    script_from_a_pipe prompt_show prompt_trace times_kept run_counter_under_a_lock full_device_much
    file_size_limit closed_pipe_much help image_cut config_cut
""".split()

# These have no room for the library, files of many MB, or a device without an end.
LEFT_OUT = (
    "memory_", "stack_", "run_too_few_threads", "schedule_memory", "sizes_", "file_of_1_gib",
    "file_longer", "check_endless", "endless_", "input_endless", "full_device_without_an_end",
    "schedule_refused_inputs",
)

WAYS = {"interrupted": "i", "in parts": "s", "interrupted and in parts": "is"}


def build(folder):
    library = os.path.join(folder, "interrupt_calls.so")
    source = os.path.join(ROOT, "tools", "interrupt_calls.c")
    subprocess.run(["cc", "-O1", "-shared", "-fPIC", "-o", library, source, "-ldl"], check=True)
    return library


def wrapper(folder, library, program, letters):
    """A program that does what the program does, with the library preloaded."""
    at = os.path.join(folder, f"smtsim-{letters}")
    with open(at, "w", encoding="utf-8") as file:
        settings = f"LD_PRELOAD={shlex.quote(library)} INTERRUPTED_CALLS={letters}"
        file.write(f'#!/bin/sh\n{settings} exec {shlex.quote(program)} "$@"\n')
    os.chmod(at, 0o755)
    return at


def all_runs():
    names = [os.path.basename(name)[: -len(".run")] for name in glob.glob(f"{SUITE}/cases/*.run")]
    return sorted(name for name in names if not name.startswith(LEFT_OUT))


def make_runs(program, names, folder, library):
    """Makes runs of the suite in each way, and answers whether one differed."""
    failed = False
    for way, letters in WAYS.items():
        words = [f"{SUITE}/run.sh", wrapper(folder, library, program, letters), *names]
        done = subprocess.run(words, capture_output=True, encoding="latin-1", check=False)
        *differs, counts = done.stdout.splitlines()
        print("\n".join([*differs, f"{way}: {counts}"]), flush=True)
        failed |= done.returncode != 0
    return failed


def make_closed(program, names, folder, library):
    """Makes runs of each command in each way, with streams closed, and answers whether one differed."""
    prepared(program, folder)
    missing = without_a_run()
    for name in missing:
        print(f"no run of the command {name}")
    kinds = [Kind(program, folder, name) for name in names]
    usual = [kind.run() for kind in kinds]
    all_wrong = len(missing)
    for way, letters in {"not interrupted": "", **WAYS}.items():
        settings = {"LD_PRELOAD": library, "INTERRUPTED_CALLS": letters}
        made, wrong = 0, 0
        for kind, done in zip(kinds, usual, strict=True):
            for closed in STREAMS:
                found, made = kind.run(closed, **settings), made + 1
                if not kind.is_as_it_should(found, done, closed):
                    wrong += 1
                    words = " ".join(kind.words)
                    print(f"{words}: {told(closed)}, {way}: status {found.status}, {found.out[-80:]!r}, {found.err!r}")
        print(f"{way}: {made} runs with streams closed, {wrong} not as they should", flush=True)
        all_wrong += wrong
    return all_wrong > 0


def main(words):
    if not words:
        print(__doc__, file=sys.stderr)
        return 2
    closes = "--closed" in words
    program, *names = [word for word in words if word != "--closed"]
    program = os.path.abspath(program)
    if names == ["all"]:
        names = list(COMMANDS) if closes else all_runs()
    with tempfile.TemporaryDirectory() as folder:
        library = build(folder)
        if closes:
            return int(make_closed(program, names or list(COMMANDS), folder, library))
        return int(make_runs(program, names or RUNS, folder, library))


sys.exit(main(sys.argv[1:]))
