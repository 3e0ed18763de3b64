"""Instruction words and what they compute, for the second judge.

Written from crates/rv_instr/specs and crates/smt_model/specs (Kinds, Exec, Faults). Nothing here
is shared with the model of the core in this folder.
"""

from functools import lru_cache
from typing import NamedTuple, Optional

WORD = 2**32


class Op(NamedTuple):
    """What stands at a pc. Registers are 0 for x0 and where there is none."""

    name: str
    kind: str = "computing"
    unit: str = "alu"
    rd: int = 0
    first: int = 0
    second: int = 0
    immediate: int = 0
    size: int = 4


class Computed(NamedTuple):
    """What an instruction computes from its operands, before memory is asked."""

    next: tuple
    value: int = 0
    address: int = 0
    datum: int = 0
    out: Optional[int] = None


ILLEGAL, NO_WORD = Op("illegal"), Op("no word")

BRANCHES = {0: "beq", 1: "bne", 4: "blt", 5: "bge", 6: "bltu", 7: "bgeu"}
LOADS = {0: ("lb", 1), 1: ("lh", 2), 2: ("lw", 4), 4: ("lbu", 1), 5: ("lhu", 2)}
STORES = {0: ("sb", 1), 1: ("sh", 2), 2: ("sw", 4)}
IMMEDIATES = {0: "add", 2: "slt", 3: "sltu", 4: "xor", 6: "or", 7: "and"}
SHIFTS = {(0, 1): "sll", (0, 5): "srl", (32, 5): "sra"}
REGISTERS = {
    (0, 0): "add", (0, 1): "sll", (0, 2): "slt", (0, 3): "sltu", (0, 4): "xor", (0, 5): "srl",
    (0, 6): "or", (0, 7): "and", (32, 0): "sub", (32, 5): "sra",
}
PRODUCTS = ("mul", "mulh", "mulhsu", "mulhu", "div", "divu", "rem", "remu")
AMOS = {
    0: "add", 1: "swap", 4: "xor", 8: "or", 12: "and", 16: "min", 20: "max", 24: "minu", 28: "maxu",
}


def signed_of(length, bits):
    """The number that so many bits are in two's complement."""
    return bits if bits < 2 ** (length - 1) else bits - 2**length


def signed(word):
    return signed_of(32, word)


@lru_cache(None)
def op_of_word(word):
    """What a word is, or what stands where there is none."""
    return NO_WORD if word is None else decoded(word) or ILLEGAL


def decoded(word):
    """The instruction that a word is, found by opcode and funct fields; None where it is none."""

    def bits(low, length):
        return word >> low & (2**length - 1)

    opcode, rd, funct3 = bits(0, 7), bits(7, 5), bits(12, 3)
    rs1, rs2, funct7 = bits(15, 5), bits(20, 5), bits(25, 7)
    i_form = signed_of(12, bits(20, 12))
    if opcode in (0b0110111, 0b0010111):
        return Op("lui" if opcode == 0b0110111 else "auipc", rd=rd, immediate=bits(12, 20) * 2**12)
    if opcode == 0b1101111:
        j_form = bits(31, 1) * 2**20 + bits(12, 8) * 2**12 + bits(20, 1) * 2**11 + bits(21, 10) * 2
        return Op("jal", rd=rd, immediate=signed_of(21, j_form))
    if opcode == 0b1100111 and funct3 == 0:
        return Op("jalr", rd=rd, first=rs1, immediate=i_form)
    if opcode == 0b1100011 and funct3 in BRANCHES:
        b_form = bits(31, 1) * 2**12 + bits(7, 1) * 2**11 + bits(25, 6) * 2**5 + bits(8, 4) * 2
        return Op(BRANCHES[funct3], first=rs1, second=rs2, immediate=signed_of(13, b_form))
    if opcode == 0b0000011 and funct3 in LOADS:
        name, size = LOADS[funct3]
        return Op(name, "loading", "mem", rd=rd, first=rs1, immediate=i_form, size=size)
    if opcode == 0b0100011 and funct3 in STORES:
        name, size = STORES[funct3]
        s_form = signed_of(12, bits(25, 7) * 2**5 + bits(7, 5))
        return Op(name, "storing", "mem", first=rs1, second=rs2, immediate=s_form, size=size)
    if opcode == 0b0101111 and funct3 == 0b010:
        return atomic(bits(27, 5), rd, rs1, rs2)
    return calculation(opcode, funct3, funct7, rd, rs1, rs2, i_form) or system(word)


def calculation(opcode, funct3, funct7, rd, rs1, rs2, immediate):
    """The instructions that make a number of two numbers."""
    if opcode == 0b0010011 and funct3 in IMMEDIATES:
        return Op(IMMEDIATES[funct3] + " by a constant", rd=rd, first=rs1, immediate=immediate)
    if opcode == 0b0010011 and (funct7, funct3) in SHIFTS:
        return Op(SHIFTS[funct7, funct3] + " by a constant", rd=rd, first=rs1, immediate=rs2)
    if opcode == 0b0110011 and funct7 == 1:
        return Op(PRODUCTS[funct3], unit="mul", rd=rd, first=rs1, second=rs2)
    if opcode == 0b0110011 and (funct7, funct3) in REGISTERS:
        return Op(REGISTERS[funct7, funct3], rd=rd, first=rs1, second=rs2)
    return None


def system(word):
    """FENCE and FENCE.I, of which only opcode and funct3 count, ECALL and EBREAK."""
    if word % 2**7 == 0b0001111 and word >> 12 & 7 in (0, 1):
        return Op("fence" if word >> 12 & 7 == 0 else "fence.i")
    return {0x00000073: Op("ecall", first=17, second=10), 0x00100073: Op("ebreak")}.get(word)


def atomic(funct5, rd, rs1, rs2):
    if funct5 == 2:
        return Op("lr", "reserving", "mem", rd=rd, first=rs1) if rs2 == 0 else None
    if funct5 == 3:
        return Op("sc", "conditional", "mem", rd=rd, first=rs1, second=rs2)
    if funct5 in AMOS:
        return Op(AMOS[funct5], "atomic", "mem", rd=rd, first=rs1, second=rs2)
    return None


def toward_zero(a, b):
    """The quotient of two numbers with signs, rounded toward zero."""
    return abs(a) // abs(b) * (1 if (a < 0) == (b < 0) else -1)


# What an operation makes of two words, as a whole number of which the low 32 bits count.
VALUES = {
    "add": lambda a, b: a + b,
    "sub": lambda a, b: a - b,
    "sll": lambda a, b: a * 2 ** (b % 32),
    "srl": lambda a, b: a // 2 ** (b % 32),
    "sra": lambda a, b: signed(a) // 2 ** (b % 32),
    "slt": lambda a, b: int(signed(a) < signed(b)),
    "sltu": lambda a, b: int(a < b),
    "xor": lambda a, b: a ^ b,
    "or": lambda a, b: a | b,
    "and": lambda a, b: a & b,
    "mul": lambda a, b: a * b,
    "mulh": lambda a, b: signed(a) * signed(b) // WORD,
    "mulhsu": lambda a, b: signed(a) * b // WORD,
    "mulhu": lambda a, b: a * b // WORD,
    "div": lambda a, b: toward_zero(signed(a), signed(b)) if b else WORD - 1,
    "divu": lambda a, b: a // b if b else WORD - 1,
    "rem": lambda a, b: signed(a) - signed(b) * toward_zero(signed(a), signed(b)) if b else a,
    "remu": lambda a, b: a % b if b else a,
}

TAKEN = {
    "beq": lambda a, b: a == b,
    "bne": lambda a, b: a != b,
    "blt": lambda a, b: signed(a) < signed(b),
    "bge": lambda a, b: signed(a) >= signed(b),
    "bltu": lambda a, b: a < b,
    "bgeu": lambda a, b: a >= b,
}

# The word that an AMO writes, of the old one and its operand.
WRITTEN = {
    "swap": lambda old, b: b,
    "add": lambda old, b: (old + b) % WORD,
    "xor": lambda old, b: old ^ b,
    "and": lambda old, b: old & b,
    "or": lambda old, b: old | b,
    "min": lambda old, b: min(old, b, key=signed),
    "max": lambda old, b: max(old, b, key=signed),
    "minu": min,
    "maxu": max,
}


def jump_to(target):
    return ("p", target) if target % 4 == 0 else ("s", 0)


def computed(op, pc, a, b):
    """What stands at a pc computes of the numbers of its two sources."""
    name, immediate, behind = op.name, op.immediate, (pc + 4) % WORD
    goes_on = ("p", behind)
    if name == "no word":
        return Computed(("s", 1))
    if name == "illegal":
        return Computed(("s", 2))
    if op.kind != "computing":
        offset = immediate if op.kind in ("loading", "storing") else 0
        datum = {"loading": 0, "reserving": 0, "storing": b % 2 ** (8 * op.size)}.get(op.kind, b)
        return Computed(goes_on, address=(a + offset) % WORD, datum=datum)
    if name in ("lui", "auipc"):
        return Computed(goes_on, value=immediate if name == "lui" else (pc + immediate) % WORD)
    if name == "jal":
        return Computed(jump_to((pc + immediate) % WORD), value=behind)
    if name == "jalr":
        target = (a + immediate) % WORD
        return Computed(jump_to(target - target % 2), value=behind)
    if name in TAKEN:
        return Computed(jump_to((pc + immediate) % WORD) if TAKEN[name](a, b) else goes_on)
    if name in ("fence", "fence.i"):
        return Computed(goes_on)
    if name == "ebreak":
        return Computed(("s", 3))
    if name == "ecall":
        return call(a, b, goes_on)
    if name.endswith(" by a constant"):
        return Computed(goes_on, value=VALUES[name.split()[0]](a, immediate % WORD) % WORD)
    return Computed(goes_on, value=VALUES[name](a, b) % WORD)


def call(number, argument, goes_on):
    if number == 93:
        return Computed(("e", argument))
    return Computed(goes_on, out=argument % 256) if number == 1 else Computed(("s", 8))


def fault(image, op, address):
    """The cause for which an access stops its hart, or None: misaligned before outside."""
    reads = op.kind in ("loading", "reserving")
    if op.kind == "computing":
        return None
    if address % op.size != 0:
        return 4 if reads else 6
    if not image.in_ram(address, op.size):
        return 5 if reads else 7
    return 7 if not reads and image.touches_fixed_code(address, op.size) else None


def read_value(op, number):
    """What a load makes of the number that it has read: LB and LH extend the sign."""
    return signed_of(8 * op.size, number) % WORD if op.name in ("lb", "lh") else number
