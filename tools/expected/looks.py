"""Which loads look again, as docs/DEFINITIONS.md says it: a filter over what has completed and
retired, with nothing remembered of a load from one event to the next."""

from typing import NamedTuple, Optional


class Completion(NamedTuple):
    """Its access is an address and how many bytes, where it names one."""

    number: int
    access: Optional[tuple]


class Retirement(NamedTuple):
    """Its write is an address and how many bytes. It gives what it loaded where it is a load whose
    register isn't x0, and its hart goes on."""

    number: int
    write: Optional[tuple]
    gives_loaded: bool


def bytes_of(access):
    address, count = access or (0, 0)
    return set(range(address, address + count))


def loads(history):
    """The places of the retirements that give what was loaded."""
    return [k for k, e in enumerate(history) if isinstance(e, Retirement) and e.gives_loaded]


def looks(history):
    """Those of them that were touched: between its completion and its retirement another retires
    whose write shares a byte with it."""
    return [k for k in loads(history) if is_touched(history[:k], history[k].number)]


def is_touched(past, number):
    own = [k for k, e in enumerate(past) if isinstance(e, Completion) and e.number == number]
    loaded = bytes_of(past[own[-1]].access)
    since = past[own[-1] :]
    return any(isinstance(e, Retirement) and bytes_of(e.write) & loaded for e in since)
