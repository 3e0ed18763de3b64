#!/usr/bin/env python3
"""Damages the table of symbols of images, and looks whether the program does with each what it does with the stripped one.

    python3 tools/fuzz/damaged_tables.py SMTSIM [COUNT [SEED]]

A damage is random bytes in the headers of the sections, in the table or in its names, or a shorter file. Each image is run by `outcomes` with
words at addresses, by `plain` and by `list`, and has to print what the image without sections prints. By a name it has to end with 0, 2 or 3,
and where tools/expected/symbols.py reads the table, a name that is accepted is the number at the address that the model gives it. Ends with 0
where nothing differs.
"""

import os
import random
import struct
import subprocess
import sys
import tempfile

ROOT = os.path.dirname(os.path.dirname(os.path.dirname(os.path.abspath(__file__))))
sys.path.insert(0, f"{ROOT}/tools/expected")

import every_order  # noqa: E402
import symbols  # noqa: E402

IMAGES = [f"{ROOT}/tests/runs/images/c_{name}_{compiler}.elf" for name in ("lock", "right", "two_counters") for compiler in ("gnu", "llvm")]
TWO = f"{ROOT}/examples/locks/two.toml"


def called(*words):
    done = subprocess.run(words, stdin=subprocess.DEVNULL, capture_output=True, check=False, timeout=60)
    return done.returncode, done.stdout, done.stderr


def stripped(file):
    """The image without a word of sections: none of its headers is counted."""
    return file[:32] + bytes(4) + file[36:46] + bytes(6) + file[52:]


def end_of_segments(file):
    start, count = struct.unpack_from("<I", file, 28)[0], struct.unpack_from("<H", file, 44)[0]
    ends = [start + 32 * count]
    for k in range(count):
        _, offset, _, _, size = struct.unpack_from("<5I", file, start + 32 * k)
        ends.append(offset + size)
    return max(ends)


def damaged(file, r):
    """Of bytes behind the segments, and of the header's words of sections, some are others; or the file ends early."""
    out, behind = bytearray(file), end_of_segments(file)
    places = list(range(32, 36)) + list(range(46, 52)) + list(range(behind, len(file)))
    table = struct.unpack_from("<I", file, 32)[0]
    likely = list(range(table, len(file)))
    for _ in range(r.choice((1, 1, 2, 4, 16))):
        place = r.choice(likely if r.random() < 0.6 else places)
        out[place] = r.choice((0, 1, 2, 3, 0x7F, 0x80, 0xFF, r.randrange(256)))
    return bytes(out[: r.randrange(behind, len(out))]) if r.random() < 0.15 else bytes(out)


def looks_right(smtsim, path, file):
    """Whether the name `counter` is refused, or is what the model of names says."""
    status, out, _ = called(smtsim, "outcomes", path, "--config", TWO, "--watch", "counter")
    try:
        found = symbols.names_with_files(file) or []
        what = every_order.watched("counter", found)
    except (symbols.Damaged, every_order.NoPlace, struct.error):
        return status == 2
    at = called(smtsim, "outcomes", path, "--config", TWO, "--watch", f"{what[1] % 2**32:08x}:{what[2]}")
    return at[0] == status and (status or at[1].replace(b"%08x:%d=" % (what[1], what[2]), b"counter=") == out)


def main(words):
    smtsim = os.path.abspath(words[0])
    count, seed = int(words[1]) if len(words) > 1 else 500, int(words[2]) if len(words) > 2 else 1
    differ = 0
    with tempfile.TemporaryDirectory() as room:
        path, other = f"{room}/damaged.elf", f"{room}/stripped.elf"
        for k in range(count):
            r = random.Random(f"tables {seed} {k}")
            with open(r.choice(IMAGES), "rb") as it:
                whole = it.read()
            file = damaged(whole, r)
            for name, contents in ((path, file), (other, stripped(whole))):
                with open(name, "wb") as it:
                    it.write(contents)
            asks = [("outcomes", "--config", TWO, "--watch", "80000040:4"), ("plain", "--config", TWO, "--rounds", "100"), ("list",)]
            same = all(called(smtsim, ask[0], path, *ask[1:]) == called(smtsim, ask[0], other, *ask[1:]) for ask in asks)
            if not same or not looks_right(smtsim, path, file):
                differ += 1
                sys.stderr.write(f"differs: seed {seed}, number {k}\n")
    print(f"{count - differ} agree, {differ} differ")
    return 1 if differ else 0


if __name__ == "__main__":
    sys.exit(main(sys.argv[1:]))
