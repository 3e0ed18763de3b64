"""All final states of a litmus test: each order of whole instructions of its harts, on one memory. A part of litmus.py.

A state is a tuple of harts and the words that were written. A hart is a tuple: why it stopped or None, the place of
its next instruction, its registers, and the address that it has reserved or None.
"""

from typing import NamedTuple

from instructions import ATOMIC_RESULTS, FORMS, MASK, RESULTS, SIZES, TAKEN, signed
from litmus_places import RAM, Address, words_in
from litmus_words import LOADS, STORES

RAM_BYTES, CODE = 65536, 0x80000100
ACCESSES = (*LOADS, *STORES, "lr.w", "sc.w", *ATOMIC_RESULTS)
# How many steps that no other hart can see are followed.
MOST_UNSEEN = 500
# The cause of the EBREAK behind a hart's instructions.
AT_ITS_END = 3


class TooMany(Exception):
    """There are more states than may be looked at, or one reads an instruction's word, which isn't known here."""


def number_of(value):
    """The word that a value is."""
    return RAM + value.byte if isinstance(value, Address) else value & MASK


def memory_of(test):
    """The words of the locations at the start, by their addresses."""
    memory = bytearray(4 * words_in(test.declared))
    for name, one in test.declared.items():
        for k, value in enumerate(test.contents.get(name, [])):
            number = number_of(value) & (1 << 8 * one.size) - 1
            begin = one.byte + k * one.size
            memory[begin : begin + one.size] = number.to_bytes(one.size, "little")
    return {RAM + at: int.from_bytes(memory[at : at + 4], "little") for at in range(0, len(memory), 4)}


def numbers_of(test):
    """Where each number stands that can be looked at in memory."""
    return dict(pair for name, one in test.declared.items() for pair in one.numbers(name))


def code_end(test):
    """The byte behind the test's code in its image."""
    words = 3 * (len(test.code) - 1) + 1
    for hart, code in enumerate(test.code):
        starts = sum(what[0] == hart for what in test.starts)
        words += 2 + 2 * starts + len(code) + sum(instruction[0] == "li" for instruction in code)
    return CODE + 4 * words


class Machine:
    def __init__(self, test):
        self.test, self.code_end = test, code_end(test)
        self.at_start = memory_of(test)
        self.numbers = numbers_of(test)

    def first(self):
        harts = []
        for hart in range(len(self.test.code)):
            registers = [number_of(self.test.starts.get((hart, k), 0)) for k in range(32)]
            harts.append((None, 0, tuple(registers), None))
        return tuple(harts), ()

    def read(self, memory, address, size=4):
        """The number of so many bytes. Memory has whole words, by their addresses."""
        word = address & ~3
        number = dict(memory).get(word, self.at_start.get(word, 0))
        return number >> 8 * (address & 3) & (1 << 8 * size) - 1

    def written(self, memory, address, size, number):
        """Memory behind a write of the lowest bytes of a number."""
        shift, mask, word = 8 * (address & 3), (1 << 8 * size) - 1, address & ~3
        changed = self.read(memory, word) & ~(mask << shift) | (number & mask) << shift
        return tuple(sorted({**dict(memory), word: changed}.items()))

    def places_and_memory(self, state):
        """What is surely no less than the program tells apart: it may drop registers, and reservations."""
        harts, memory = state
        changed = tuple((a, number) for a, number in memory if number != self.at_start.get(a, 0))
        return tuple((stopped, place) for stopped, place, _, _ in harts), changed

    def fault(self, address, size, writes):
        """The cause with which an access of so many bytes stops its hart; None where it doesn't."""
        if address % size:
            return 6 if writes else 4
        if not RAM <= address <= RAM + RAM_BYTES - size:
            return 7 if writes else 5
        if CODE <= address < self.code_end:
            if not writes:
                raise TooMany
            return 7
        return None

    def after(self, state, number):
        """The state behind the next instruction of a hart that hasn't stopped."""
        harts, memory = state
        _, place, registers, reserved = harts[number]
        code = self.test.code[number]
        if place == len(code):
            return with_hart(harts, number, (AT_ITS_END, place, registers, reserved)), memory
        instruction = code[place]
        name, operands = instruction[0], instruction[1:]
        if name in ACCESSES:
            return self.access(state, number, name, operands)
        if name in TAKEN:
            first, second, target = operands
            place = target - 1 if TAKEN[name](registers[first], registers[second]) else place
        elif name != "fence":
            registers = with_register(registers, operands[0], result(name, registers, operands[1:]))
        return with_hart(harts, number, (None, place + 1, registers, reserved)), memory

    def access(self, state, number, name, operands):
        harts, memory = state
        _, place, registers, reserved = harts[number]
        offset, size = (operands[1], SIZES[name]) if name in SIZES else (0, 4)
        address = registers[operands[-1]] + offset & MASK
        cause = self.fault(address, size, name not in (*LOADS, "lr.w"))
        if cause is not None:
            return with_hart(harts, number, (cause, place, registers, reserved)), memory
        found, written = self.read(memory, address, size), None
        if name in STORES:
            written = registers[operands[0]]
        elif name in ("lb", "lh"):
            found = signed(found, 8 * size) & MASK
        elif name == "lr.w":
            reserved = address
        elif name == "sc.w":
            written = registers[operands[1]] if reserved == address else None
            found, reserved = int(written is None), None
        elif name not in LOADS:
            written = ATOMIC_RESULTS[name](found, registers[operands[1]])
        if name not in STORES:
            registers = with_register(registers, operands[0], found)
        harts = with_hart(harts, number, (None, place + 1, registers, reserved))
        if written is not None:
            # Each write of a byte or more ends the reservations of its word.
            harts = tuple((*hart[:3], None if hart[3] == address & ~3 else hart[3]) for hart in harts)
            memory = self.written(memory, address, size, written)
        return harts, memory


def with_hart(harts, number, hart):
    return (*harts[:number], hart, *harts[number + 1 :])


def with_register(registers, register, number):
    return registers if register == 0 else (*registers[:register], number, *registers[register + 1 :])


def result(name, registers, operands):
    if name == "li":
        return operands[0] & MASK
    if name == "lui":
        return operands[0] << 12
    if name in FORMS:
        return RESULTS[FORMS[name]](registers[operands[0]], operands[1] & MASK)
    return RESULTS[name](registers[operands[0]], registers[operands[1]])


class Found(NamedTuple):
    """All final states, sorted: why each hart stopped, and the numbers of what is looked at; how many states there were
    on the way; and whether there is one from which no order of the harts leads to a final state."""

    states: list
    looked_at: int
    is_stuck: bool


def final_states(test, most):
    machine = Machine(test)
    waiting = [machine.first()]
    before = {waiting[0]: []}
    ends = []
    while waiting:
        state = waiting.pop()
        going = [number for number, hart in enumerate(state[0]) if hart[0] is None]
        if not going:
            ends.append(state)
        for number in going:
            there = machine.after(state, number)
            if there not in before:
                before[there] = []
                waiting.append(there)
            before[there].append(state)
        if len(before) > most:
            raise TooMany
    found = sorted({observed(machine, state) for state in ends})
    return Found(found, len(before), len(leading(before, ends)) < len(before))


def leading(before, ends):
    """Those states from which some order leads to one of these; `before` has the states right before each."""
    waiting, seen = list(ends), set(ends)
    while waiting:
        for state in before[waiting.pop()]:
            if state not in seen:
                seen.add(state)
                waiting.append(state)
    return seen


def settled(machine, state, number):
    """The state behind the steps of a hart that no other hart can see: all but an access of memory without a fault."""
    code = machine.test.code[number]
    for _ in range(MOST_UNSEEN):
        stopped, place = state[0][number][:2]
        if stopped is not None:
            return state
        there = machine.after(state, number)
        if place < len(code) and code[place][0] in ACCESSES and there[0][number][0] is None:
            return state
        state = there
    raise TooMany


def bounds(test):
    """At least and at the most how many states there are where steps that no other hart can see are made at once: told
    apart by places and memory, and by all."""
    machine = Machine(test)
    state = machine.first()
    for number in range(len(test.code)):
        state = settled(machine, state, number)
    waiting, seen = [state], {state}
    while waiting:
        state = waiting.pop()
        for number, hart in enumerate(state[0]):
            if hart[0] is None:
                there = settled(machine, machine.after(state, number), number)
                if there not in seen:
                    seen.add(there)
                    waiting.append(there)
    return len({machine.places_and_memory(state) for state in seen}), len(seen)


def observed(machine, state):
    harts, memory = state
    numbers = []
    for what in machine.test.question.observed:
        if isinstance(what, tuple):
            numbers.append(harts[what[0]][2][what[1]])
        else:
            one = machine.numbers[what]
            numbers.append(machine.read(memory, RAM + one.byte, one.size))
    return tuple(hart[0] for hart in harts), tuple(numbers)
