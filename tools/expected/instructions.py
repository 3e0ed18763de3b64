"""The instructions of RV32IMA: which one a word is, how it is spelled, and what it computes.

Written from the RISC-V Unprivileged ISA manual and docs/FORMATS.md; shares no code with the
program.
"""

from dataclasses import dataclass

MASK = 0xFFFFFFFF


def signed(word, bits=32):
    """The number that the low bits of a word are, read with a sign."""
    word &= (1 << bits) - 1
    return word - (1 << bits) if word >> (bits - 1) else word


@dataclass(frozen=True)
class Instruction:
    name: str
    kind: str  # "compute", "load", "store", "lr", "sc" or "amo"
    unit: str  # "alu", "mul" or "mem"
    rd: int = 0  # 0 for x0 and for none
    rs1: int = 0
    rs2: int = 0
    imm: int = 0
    suffix: str = ""  # ".aq", ".rl" or ".aqrl"


# What stands for a word of no instruction, and for no word.
ILLEGAL = Instruction("illegal", "compute", "alu")
NO_WORD = Instruction("no word", "compute", "alu")

BRANCHES = {0: "beq", 1: "bne", 4: "blt", 5: "bge", 6: "bltu", 7: "bgeu"}
LOADS = {0: ("lb", 1), 1: ("lh", 2), 2: ("lw", 4), 4: ("lbu", 1), 5: ("lhu", 2)}
STORES = {0: ("sb", 1), 1: ("sh", 2), 2: ("sw", 4)}
IMMEDIATES = {0: "addi", 2: "slti", 3: "sltiu", 4: "xori", 6: "ori", 7: "andi"}
SHIFTS = {(1, 0): "slli", (5, 0): "srli", (5, 32): "srai"}
REGISTERS = {
    (0, 0): "add", (0, 32): "sub", (1, 0): "sll", (2, 0): "slt", (3, 0): "sltu",
    (4, 0): "xor", (5, 0): "srl", (5, 32): "sra", (6, 0): "or", (7, 0): "and",
}
PRODUCTS = ["mul", "mulh", "mulhsu", "mulhu", "div", "divu", "rem", "remu"]
ATOMICS = {
    0: "amoadd", 1: "amoswap", 4: "amoxor", 8: "amoor", 12: "amoand",
    16: "amomin", 20: "amomax", 24: "amominu", 28: "amomaxu",
}
SIZES = {name: size for name, size in [*LOADS.values(), *STORES.values()]}


def decode(word):
    """The instruction that a word is; ILLEGAL where no row of the manual's tables fits."""
    opcode, rd, funct3 = word & 127, word >> 7 & 31, word >> 12 & 7
    rs1, rs2, funct7 = word >> 15 & 31, word >> 20 & 31, word >> 25
    i_imm = signed(word >> 20, 12)
    s_imm = signed(funct7 << 5 | rd, 12)
    b_imm = signed((word >> 31) << 12 | (rd & 1) << 11 | (funct7 & 63) << 5 | (rd >> 1) << 1, 13)
    j_imm = signed(
        (word >> 31) << 20
        | (word >> 12 & 255) << 12
        | (word >> 20 & 1) << 11
        | (word >> 21 & 1023) << 1,
        21,
    )
    if opcode == 0b0110111:
        return Instruction("lui", "compute", "alu", rd, imm=word & 0xFFFFF000)
    if opcode == 0b0010111:
        return Instruction("auipc", "compute", "alu", rd, imm=word & 0xFFFFF000)
    if opcode == 0b1101111:
        return Instruction("jal", "compute", "alu", rd, imm=j_imm)
    if opcode == 0b1100111 and funct3 == 0:
        return Instruction("jalr", "compute", "alu", rd, rs1, imm=i_imm)
    if opcode == 0b1100011 and funct3 in BRANCHES:
        return Instruction(BRANCHES[funct3], "compute", "alu", 0, rs1, rs2, b_imm)
    if opcode == 0b0000011 and funct3 in LOADS:
        return Instruction(LOADS[funct3][0], "load", "mem", rd, rs1, imm=i_imm)
    if opcode == 0b0100011 and funct3 in STORES:
        return Instruction(STORES[funct3][0], "store", "mem", 0, rs1, rs2, s_imm)
    if opcode == 0b0010011 and funct3 in IMMEDIATES:
        return Instruction(IMMEDIATES[funct3], "compute", "alu", rd, rs1, imm=i_imm)
    if opcode == 0b0010011 and (funct3, funct7) in SHIFTS:
        return Instruction(SHIFTS[funct3, funct7], "compute", "alu", rd, rs1, imm=rs2)
    if opcode == 0b0110011 and (funct3, funct7) in REGISTERS:
        return Instruction(REGISTERS[funct3, funct7], "compute", "alu", rd, rs1, rs2)
    if opcode == 0b0110011 and funct7 == 1:
        return Instruction(PRODUCTS[funct3], "compute", "mul", rd, rs1, rs2)
    if opcode == 0b0001111 and funct3 == 0:
        return Instruction("fence", "compute", "alu")
    if opcode == 0b0001111 and funct3 == 1:
        return Instruction("fence.i", "compute", "alu")
    if word == 0x00000073:
        return Instruction("ecall", "compute", "alu", 0, 17, 10)
    if word == 0x00100073:
        return Instruction("ebreak", "compute", "alu")
    if opcode == 0b0101111 and funct3 == 2:
        return decode_atomic(word, rd, rs1, rs2)
    return ILLEGAL


def decode_atomic(word, rd, rs1, rs2):
    row = word >> 27
    suffix = ["", ".rl", ".aq", ".aqrl"][word >> 25 & 3]
    if row == 2 and rs2 == 0:
        return Instruction("lr.w", "lr", "mem", rd, rs1, suffix=suffix)
    if row == 3:
        return Instruction("sc.w", "sc", "mem", rd, rs1, rs2, suffix=suffix)
    if row in ATOMICS:
        return Instruction(ATOMICS[row] + ".w", "amo", "mem", rd, rs1, rs2, suffix=suffix)
    return ILLEGAL


def spelled(word, pc):
    """The text of a word's instruction at its pc, `.word` where it is none."""
    i = decode(word)
    name = i.name + i.suffix
    rd, rs1, rs2 = f"x{i.rd}", f"x{i.rs1}", f"x{i.rs2}"
    if i is ILLEGAL:
        return ".word"
    if name in ("fence", "fence.i", "ecall", "ebreak"):
        return name
    if name in ("lui", "auipc"):
        return f"{name} {rd},0x{i.imm >> 12:05x}"
    if name == "jal":
        return f"{name} {rd},0x{pc + i.imm & MASK:08x}"
    if name in BRANCHES.values():
        return f"{name} {rs1},{rs2},0x{pc + i.imm & MASK:08x}"
    if name == "jalr" or i.kind == "load":
        return f"{name} {rd},{i.imm}({rs1})"
    if i.kind == "store":
        return f"{name} {rs2},{i.imm}({rs1})"
    if name in IMMEDIATES.values() or name in SHIFTS.values():
        return f"{name} {rd},{rs1},{i.imm}"
    if i.kind == "lr":
        return f"{name} {rd},({rs1})"
    if i.kind in ("sc", "amo"):
        return f"{name} {rd},{rs2},({rs1})"
    return f"{name} {rd},{rs1},{rs2}"


def quotient(a, b):
    """Signed division toward zero, with the manual's two exceptions."""
    if signed(b) == 0:
        return MASK
    n = abs(signed(a)) // abs(signed(b))
    return (n if (signed(a) < 0) == (signed(b) < 0) else -n) & MASK


def remainder(a, b):
    if signed(b) == 0:
        return a
    n = abs(signed(a)) % abs(signed(b))
    return (-n if signed(a) < 0 else n) & MASK


# What the instructions of two operands give; the second operand of the first rows is an immediate
# as a word.
RESULTS = {
    "add": lambda a, b: a + b & MASK,
    "sub": lambda a, b: a - b & MASK,
    "sll": lambda a, b: a << (b & 31) & MASK,
    "slt": lambda a, b: int(signed(a) < signed(b)),
    "sltu": lambda a, b: int(a < b),
    "xor": lambda a, b: a ^ b,
    "srl": lambda a, b: a >> (b & 31),
    "sra": lambda a, b: signed(a) >> (b & 31) & MASK,
    "or": lambda a, b: a | b,
    "and": lambda a, b: a & b,
    "mul": lambda a, b: a * b & MASK,
    "mulh": lambda a, b: signed(a) * signed(b) >> 32 & MASK,
    "mulhsu": lambda a, b: signed(a) * b >> 32 & MASK,
    "mulhu": lambda a, b: a * b >> 32 & MASK,
    "div": quotient,
    "divu": lambda a, b: a // b if b else MASK,
    "rem": remainder,
    "remu": lambda a, b: a % b if b else a,
}
# An instruction with an immediate does what its register form does.
FORMS = {
    "addi": "add", "slti": "slt", "sltiu": "sltu", "xori": "xor", "ori": "or", "andi": "and",
    "slli": "sll", "srli": "srl", "srai": "sra",
}
TAKEN = {
    "beq": lambda a, b: a == b,
    "bne": lambda a, b: a != b,
    "blt": lambda a, b: signed(a) < signed(b),
    "bge": lambda a, b: signed(a) >= signed(b),
    "bltu": lambda a, b: a < b,
    "bgeu": lambda a, b: a >= b,
}
ATOMIC_RESULTS = {
    "amoadd.w": lambda old, b: old + b & MASK,
    "amoswap.w": lambda old, b: b,
    "amoxor.w": lambda old, b: old ^ b,
    "amoor.w": lambda old, b: old | b,
    "amoand.w": lambda old, b: old & b,
    "amomin.w": lambda old, b: min(old, b, key=signed),
    "amomax.w": lambda old, b: max(old, b, key=signed),
    "amominu.w": min,
    "amomaxu.w": max,
}


@dataclass
class Computed:
    """What an instruction makes of its operands: a number, what comes next, an address, and the
    number that it hands to memory."""

    next: tuple  # ("p", pc), ("e", status) or ("s", cause)
    value: int = 0
    addr: int = 0
    data: int = 0
    out: int = None


def compute(i, pc, a, b):
    """Instruction `i` at `pc`, with the numbers of its first and second source."""
    behind = ("p", pc + 4 & MASK)
    if i is NO_WORD:
        return Computed(("s", 1))
    if i is ILLEGAL:
        return Computed(("s", 2))
    if i.name == "ebreak":
        return Computed(("s", 3))
    if i.name == "ecall":
        if a == 93:
            return Computed(("e", b))
        return Computed(behind, out=b & 255) if a == 1 else Computed(("s", 8))
    if i.name in ("jal", "jalr"):
        target = pc + i.imm & MASK if i.name == "jal" else (a + i.imm & MASK) & ~1
        return Computed(jump(target), value=pc + 4 & MASK)
    if i.name in TAKEN:
        return Computed(jump(pc + i.imm & MASK) if TAKEN[i.name](a, b) else behind)
    if i.kind in ("load", "store"):
        return Computed(behind, addr=a + i.imm & MASK, data=b & (1 << 8 * SIZES[i.name]) - 1)
    if i.kind in ("lr", "sc", "amo"):
        return Computed(behind, addr=a, data=b)
    if i.name in ("fence", "fence.i"):
        return Computed(behind)
    if i.name in ("lui", "auipc"):
        return Computed(behind, value=i.imm + (pc if i.name == "auipc" else 0) & MASK)
    if i.name in FORMS:
        return Computed(behind, value=RESULTS[FORMS[i.name]](a, i.imm & MASK))
    return Computed(behind, value=RESULTS[i.name](a, b))


def jump(target):
    return ("p", target) if target % 4 == 0 else ("s", 0)


def predicted(word, pc):
    """What the program's predictor says: a JAL and a branch backwards go to their targets, all else
    goes on behind."""
    i = decode(word)
    if i.name == "jal" or (i.name in TAKEN and i.imm < 0):
        return pc + i.imm & MASK
    return pc + 4 & MASK
