"""The programs of tests/runs/images that reserve words and store to them by SC, each for something that a search may take for a
step that nobody sees, and lose an outcome by it or find one too many.

Each has the address of a word that all harts share in x6, and ends with ECALL or EBREAK.
"""

END = [0x05D00893, 0x00000073]
STOP = [0x00100073]
# lui x6,0x80001
TO_WORD = [0x80001337]


def load_reserved(rd, at):
    return 2 << 27 | at << 15 | 2 << 12 | rd << 7 | 0x2F


def store_conditional(rd, what, at):
    return 3 << 27 | what << 20 | at << 15 | 2 << 12 | rd << 7 | 0x2F


def add_immediate(rd, rs, number):
    return (number & 0xFFF) << 20 | rs << 15 | rd << 7 | 0x13


def add(rd, rs, other):
    return other << 20 | rs << 15 | rd << 7 | 0x33


def shift_left(rd, rs, count):
    return count << 20 | rs << 15 | 1 << 12 | rd << 7 | 0x13


def store(what, at, offset=0, size=2):
    return (offset >> 5) << 25 | what << 20 | at << 15 | size << 12 | (offset & 31) << 7 | 0x23


def load(rd, at, offset=0):
    return offset << 20 | at << 15 | 2 << 12 | rd << 7 | 0x03


def branch(kind, rs, other, to):
    to &= 0x1FFF
    return (
        (to >> 12) << 31 | (to >> 5 & 63) << 25 | other << 20 | rs << 15 | kind << 12 | (to >> 1 & 15) << 8 | (to >> 11 & 1) << 7 | 0x63
    )


EQUAL, NOT_EQUAL, NOT_LESS, BELOW = 0, 1, 5, 6

# One is added to the word, or nothing: x7 says which.
TRY_TO_ADD = [load_reserved(5, 6), add_immediate(5, 5, 1), store_conditional(7, 5, 6)]

PROGRAMS = {
    # sc.w x7,x5,(x6); lw x8,0(x6); slli x8,x8,1; add x10,x7,x8: nobody has reserved anything, so no SC ever stores
    "conditional_without_a_reservation": [
        *TO_WORD, add_immediate(5, 0, 1), store_conditional(7, 5, 6), load(8, 6), shift_left(8, 8, 1), add(10, 7, 8), *END,
    ],
    # lr.w x5,(x6); sc.w x0,x5,(x6); addi x10,x0,0; sc.w x0,x5,(x6); add x10,x10,x0: x0 stays 0, whether SC stores or fails
    "conditional_into_x0": [
        *TO_WORD, load_reserved(5, 6), store_conditional(0, 5, 6), add_immediate(10, 0, 0), store_conditional(0, 5, 6),
        add(10, 10, 0), *END,
    ],
    # bne x10,x0,+32; addi x8,x6,4; lr.w x5,(x6); sc.w x7,x5,(x8); sc.w x9,x5,(x6); slli x9,x9,1; add x10,x7,x9; ebreak;
    # sw x10,0(x6); ebreak: an SC to another word fails and ends the reservation, with a store to either word before or behind it
    "conditional_to_another_word": [
        *TO_WORD, branch(NOT_EQUAL, 10, 0, 32), add_immediate(8, 6, 4), load_reserved(5, 6), store_conditional(7, 5, 8),
        store_conditional(9, 5, 6), shift_left(9, 9, 1), add(10, 7, 9), *STOP, store(10, 6), *STOP,
    ],
    # hart 0 adds 1 by LR and SC until it has, and counts in x10 how often it hasn't; each other hart stores twice:
    # bne x10,x0,+32; lr.w x5,(x6); addi x5,x5,1; sc.w x7,x5,(x6); add x10,x10,x7; bne x7,x0,-16; addi x17,x0,93; ecall;
    # sw x0,0(x6); sw x0,0(x6); ebreak
    "conditional_fails_twice": [
        *TO_WORD, branch(NOT_EQUAL, 10, 0, 32), *TRY_TO_ADD, add(10, 10, 7), branch(NOT_EQUAL, 7, 0, -16), *END,
        store(0, 6), store(0, 6), *STOP,
    ],
    # hart 2 stores once; each other one reserves and stores, and where it fails adds its number and one so often as that says, which
    # are steps that nobody sees: addi x9,x0,2; beq x10,x9,+44; lr.w x5,(x6); addi x5,x5,1; sc.w x7,x5,(x6); beq x7,x0,+20;
    # addi x12,x12,3; addi x10,x10,-1; bge x10,x0,-8; addi x10,x12,0 falls to addi x17,x0,93; ecall; sw x9,0(x6); ebreak
    "conditionals_fail_at_once": [
        *TO_WORD, add_immediate(9, 0, 2), branch(EQUAL, 10, 9, 44), *TRY_TO_ADD, branch(EQUAL, 7, 0, 20),
        add_immediate(12, 12, 3), add_immediate(10, 10, -1), branch(NOT_LESS, 10, 0, -8), add_immediate(10, 12, 0), *END,
        store(9, 6), *STOP,
    ],
    # hart 0 reserves the word and never stores; the others store to it: bne x10,x0,+16; lr.w x10,(x6); addi x17,x0,93; ecall;
    # sw x10,0(x6); ebreak
    "reserved_for_nothing": [*TO_WORD, branch(NOT_EQUAL, 10, 0, 16), load_reserved(10, 6), *END, store(10, 6), *STOP],
    # hart 0 tries SC for ever, without LR; the others store once: bne x10,x0,+12; sc.w x7,x6,(x6); beq x0,x0,-4; sw x10,0(x6); ebreak
    "conditional_for_ever": [
        *TO_WORD, branch(NOT_EQUAL, 10, 0, 12), store_conditional(7, 6, 6), branch(EQUAL, 0, 0, -4), store(10, 6), *STOP,
    ],
    # lr.w x5,(x6); sw x10,0(x6); sc.w x7,x5,(x6); addi x10,x7,0: a hart's own store ends its reservation
    "own_store_behind_a_reservation": [
        *TO_WORD, load_reserved(5, 6), store(10, 6), store_conditional(7, 5, 6), add_immediate(10, 7, 0), *END,
    ],
    # lr.w x5,(x6); addi x5,x5,1; sc.w x7,x5,(x6); sc.w x8,x5,(x6); slli x8,x8,1; add x10,x7,x8: the second one fails, whatever the first did
    "conditional_behind_a_conditional": [
        *TO_WORD, *TRY_TO_ADD, store_conditional(8, 5, 6), shift_left(8, 8, 1), add(10, 7, 8), *END,
    ],
    # the harts below 13 are over at once: addi x9,x0,13; bltu x10,x9,+28; addi x9,x0,15; beq x10,x9,+28; lr.w x5,(x6); addi x5,x5,1;
    # sc.w x7,x5,(x6); addi x10,x7,0; addi x17,x0,93; ecall; sw x10,0(x6); ebreak: hart 15 stores, and 13 and 14 reserve and store
    "conditionals_of_the_last_harts": [
        *TO_WORD, add_immediate(9, 0, 13), branch(BELOW, 10, 9, 28), add_immediate(9, 0, 15), branch(EQUAL, 10, 9, 28), *TRY_TO_ADD,
        add_immediate(10, 7, 0), *END, store(10, 6), *STOP,
    ],
}
