"""Reads the cells of a hart of a litmus test into its instructions. A part of litmus.py.

An instruction is a tuple: ("lw", register, offset, base) and each load and store alike, ("lr.w", register, base),
("sc.w", register, source, base) and each AMO alike, ("li", register, number) and ("lui", ..), ("addi", register,
source, number) and its like, ("add", register, first, second) and its like, ("beq", first, second, place) and its like,
or ("fence",). The place of a branch is that of the instruction to which it goes, the number of instructions where it is the end.
"""

import re
from typing import NamedTuple

import litmus_places
from litmus_words import ATOMICS, BRANCHES, IMMEDIATES, LOADS, ORDERED, SHIFTS, STORES, SUBSET, SWAPPED, THREE_REGISTERS
from litmus_words import TOO_LARGE, WITH_ZERO, ZERO_WITH, Refused

MOST_STEPS = 500


class Looked(NamedTuple):
    """A number that is looked at behind what follows it, and where it stands."""

    at: int
    number: int


def read(cells, declared):
    """The instructions of a hart."""
    code, labels = [], {}
    for cell in cells:
        read_label(cell, labels, len(code))
        if cell.peek() is not None:
            at = cell.at()
            instruction = read_instruction(cell, declared)
            if len(code) == MOST_STEPS:
                raise Refused(at, "more than 500 steps of a hart")
            code.append(instruction)
    return [resolved(instruction, labels) for instruction in code]


def read_label(cell, labels, place):
    if len(cell.words) < 2 or cell.words[1].kind != "mark" or cell.words[1].text != ":":
        return
    word = cell.take_kind("name")
    cell.take_mark(":")
    if word.text in labels:
        raise Refused(word.at, "a label that is there twice")
    labels[word.text] = place


def resolved(instruction, labels):
    if instruction[0] not in BRANCHES:
        return instruction
    label = instruction[3]
    if label.text not in labels:
        raise Refused(label.at, "a label that isn't there")
    return (*instruction[:3], labels[label.text])


def read_instruction(cell, declared):
    """An instruction, with nothing behind it. What has to be small, or 0, is looked at last."""
    instruction = read_operands(cell, declared)
    cell.nothing_more()
    if not isinstance(instruction[-1], Looked):
        return instruction
    *instruction, last = instruction
    name = instruction[0]
    if name == "jal":
        if last.number != 0:
            raise Refused(last.at, "a link register other than x0")
        return ("beq", 0, 0, instruction[2])
    if name in ("lr.w", "sc.w", *ATOMICS):
        if last.number != 0:
            raise Refused(last.at, SUBSET)
        return tuple(instruction)
    if not 0 <= last.number < (32 if name in SHIFTS else 2**20):
        raise Refused(last.at, TOO_LARGE)
    return (*instruction, last.number)


def read_operands(cell, declared):
    name = cell.take_kind("instruction").text
    if name in (*LOADS, *STORES):
        return read_access(cell, name)
    if name in ORDERED:
        return read_ordered(cell, re.match(r"[a-z]+\.w", name).group())
    if name in (*BRANCHES, *SWAPPED, *WITH_ZERO, *ZERO_WITH):
        return read_branch(cell, name)
    if name == "j":
        return ("beq", 0, 0, cell.take_kind("name"))
    if name == "jal":
        at, link = cell.at(), cell.take_register()
        cell.take_mark(",")
        return ("jal", link, cell.take_kind("name"), Looked(at, link))
    if name == "fence":
        read_fence(cell)
    if name in ("fence", "fence.tso"):
        return ("fence",)
    if name == "nop":
        return ("addi", 0, 0, 0)
    register = cell.take_register()
    cell.take_mark(",")
    if name == "li":
        return (name, register, cell.take_number())
    if name == "la":
        return ("li", register, litmus_places.RAM + litmus_places.take_address(cell, declared).byte)
    if name == "lui":
        return (name, register, Looked(cell.at(), cell.take_number()))
    return read_computing(cell, name, register)


def read_computing(cell, name, register):
    """What is computed of one register or two."""
    source = cell.take_register()
    if name == "mv":
        return ("addi", register, source, 0)
    cell.take_mark(",")
    if name in SHIFTS:
        return (name, register, source, Looked(cell.at(), cell.take_number()))
    if name in IMMEDIATES:
        return (name, register, source, cell.take_number(-2048, 2047))
    assert name in THREE_REGISTERS
    return (name, register, source, cell.take_register())


def read_access(cell, name):
    register = cell.take_register()
    cell.take_mark(",")
    offset = 0 if cell.is_mark("(") else cell.take_number(-2048, 2047)
    return (name, register, offset, read_base(cell))


def read_base(cell):
    cell.take_mark("(")
    base = cell.take_register()
    cell.take_mark(")")
    return base


def read_ordered(cell, name):
    """An LR, an SC or an AMO."""
    registers = [cell.take_register()]
    cell.take_mark(",")
    if name in ("sc.w", *ATOMICS):
        registers.append(cell.take_register())
        cell.take_mark(",")
    offset = Looked(cell.at(), 0 if cell.is_mark("(") else cell.take_number(-2048, 2047))
    return (name, *registers, read_base(cell), offset)


def read_branch(cell, name):
    registers = [cell.take_register()]
    cell.take_mark(",")
    if name in (*BRANCHES, *SWAPPED):
        registers.append(cell.take_register())
        cell.take_mark(",")
    else:
        registers.append(0)
    if name in (*SWAPPED, *ZERO_WITH):
        registers.reverse()
    op = {**BRANCHES, **SWAPPED, **WITH_ZERO, **ZERO_WITH}[name]
    return (op, *registers, cell.take_kind("name"))


def read_fence(cell):
    if cell.peek() is None:
        return
    read_set(cell)
    cell.take_mark(",")
    read_set(cell)


def read_set(cell):
    word = cell.take()
    if word.kind not in ("name", "instruction") or not re.fullmatch("[iorw]+", word.text):
        raise Refused(word.at, SUBSET)
