"""The limits of a core, and the numbers that a trace can spell, as docs/FORMATS.md says them.

The one thing that all models here have in common: each takes its limits from this file.
"""

from typing import NamedTuple

ROLES = ("fetch", "front", "retire", "alu", "mul", "mem")
MOST_EVENTS = 16777216
HARTS = range(1, 17)
EXTRA = range(1, 529)
QUEUED = range(4, 65)
ACTORS = range(1, 33)
RAM = range(4096, 16777216 + 1, 4096)
EVENTS = range(MOST_EVENTS + 1)
TURNS = range(10**18 + 1)
# What each key of a configuration with a number may be.
NUMBERS = {
    "harts": HARTS, "extra": EXTRA, "queue": QUEUED, "ram": RAM, "limit": EVENTS, "turns": TURNS,
}
RENAMED = 31
MOST_HARTS, MOST_EXTRA, MOST_ACTORS = HARTS[-1], EXTRA[-1], ACTORS[-1]


class Spelled(NamedTuple):
    """The greatest actor, hart and physical register that a version of traces has."""

    actor: int
    hart: int
    register: int


FIRST = Spelled(15, 7, 503)
SECOND = Spelled(31, 15, 1023)
