"""Writes the images of tests/runs/images: `python3 tools/expected/images.py`.

What is wrong with a wrong one is in its name.
"""

import os
import struct

import code_images
import conditional_images
import memory_images
from image import BASE, R, W, X, build

FIRST = [0x00500513, 0x05D00893, 0x00000073]
NOP = 0x00000013
FOLDER = os.path.join(os.path.dirname(os.path.abspath(__file__)), "../../tests/runs/images")


def patched(file, at, data):
    return file[:at] + data + file[at + len(data) :]


def word(number):
    return number.to_bytes(4, "little")


def half(number):
    return number.to_bytes(2, "little")


def spread(count):
    """Segments of data, 16 bytes each, behind the first 16 bytes of RAM."""
    return [(BASE + 16 * k, bytes(4), R | W, 16) for k in range(1, count + 1)]


def with_names(file, names):
    """The file with a table of symbols behind it: of each its name, address and kind, an object of 4 bytes or a file."""
    sections = 4
    texts = b"\0" + b"".join(name.encode() + b"\0" for name, _, _ in names)
    table, at = bytes(16), 1
    for name, address, kind in names:
        size, section = (4, 1) if kind == OBJECT else (0, 0xFFF1)
        table += struct.pack("<IIIBBH", at, address, size, kind, 0, section)
        at += len(name) + 1
    begin = len(file)
    headers = bytes(40) + struct.pack("<10I", 0, 1, 6, BASE, 0, 0, 0, 0, 4, 0)
    headers += struct.pack("<10I", 0, 2, 0, 0, begin, len(table), 3, len(names) + 1, 4, 16)
    headers += struct.pack("<10I", 0, 3, 0, 0, begin + len(table), len(texts), 0, 0, 1, 0)
    file = patched(file, 32, word(begin + len(table) + len(texts)))
    file = patched(file, 46, half(40) + half(sections) + half(3))
    return file + table + texts + headers


OBJECT, SOURCE_FILE = 1, 4

GOOD = build(FIRST)
# Where the fields of the first program header stand.
TYPE, OFFSET, ADDRESS, FILE_SIZE, SIZE, FLAGS = 52, 56, 60, 68, 72, 76

PROGRAMS = {
    # addi x10,x0,5; addi x17,x0,93; ecall
    "first": FIRST,
    "nops": [NOP] * 4,
    "one_nop": [NOP],
    # lui x6,0x80001; bne x10,x0,0x80000014; lw x5,0(x6); addi x7,x5,1; ebreak; addi x5,x0,7; sw
    # x5,0(x6); sw x0,0(x6); ebreak
    "loads_and_stores": [
        0x80001337, 0x00051863, 0x00032283, 0x00128393, 0x00100073, 0x00700293, 0x00532023,
        0x00032023, 0x00100073,
    ],
    # addi x5,x0,3; beq x0,x0,0x8000000c; mul x7,x5,x5; addi x8,x0,9; ebreak
    "skip_a_product": [0x00300293, 0x00000463, 0x025283B3, 0x00900413, 0x00100073],
    # addi x0,x0,0; addi x5,x0,1; addi x7,x0,2; ebreak
    "two_numbers": [NOP, 0x00100293, 0x00200393, 0x00100073],
    # add x5,x10,x11; ebreak: the hart's number and how many there are
    "number_and_count": [0x00B502B3, 0x00100073],
    # jal x5 to pc + 2
    "jump_by_two": [0x002002EF],
    # eight times bne x0,x0 to pc + 8; addi x5,x0,3; beq x0,x0 to pc + 8; addi x5,x0,9; ebreak
    "many_branches": [0x00001463] * 8 + [0x00300293, 0x00000463, 0x00900293, 0x00100073],
    # addi x17,x0,93; ecall: each hart ends with its number
    "end_with_number": [0x05D00893, 0x00000073],
    # srli x10,x10,1; addi x17,x0,93; ecall: each hart ends with half of its number
    "end_with_half": [0x00155513, 0x05D00893, 0x00000073],
    # addi x10,x0,0; addi x17,x0,93; ecall
    "end_with_zero": [0x00000513, 0x05D00893, 0x00000073],
    # addi x10,x0,256; addi x17,x0,93; ecall: the low byte of the number is 0
    "end_with_256": [0x10000513, 0x05D00893, 0x00000073],
    # addi x10,x0,-1; addi x17,x0,93; ecall: the greatest number there is
    "end_with_the_greatest": [0xFFF00513, 0x05D00893, 0x00000073],
    # bne x10,x0,0x8000000c; addi x17,x0,93; ecall; ebreak: hart 0 ends with 0, the others stop
    "zero_or_stop": [0x00051663, 0x05D00893, 0x00000073, 0x00100073],
    # beq x10,x0,0x80000010; addi x10,x0,0; addi x17,x0,93; ecall; ebreak: hart 0 stops, the others
    # end with 0
    "stop_or_zero": [0x00050863, 0x00000513, 0x05D00893, 0x00000073, 0x00100073],
    # addi x17,x0,1; addi x10,x10,65; ecall; addi x10,x10,256; ecall; addi x10,x0,0; addi x17,x0,93;
    # ecall: two bytes
    "put_out": [
        0x00100893, 0x04150513, 0x00000073, 0x10050513, 0x00000073, 0x00000513, 0x05D00893,
        0x00000073,
    ],
    # addi x17,x0,7; ecall
    "unknown_call": [0x00700893, 0x00000073],
    "ebreak": [0x00100073],
    "illegal": [0x00000000],
    # fence; then behind the code
    "fence": [0x0FF0000F],
    # jal x0,0: for ever at one place
    "stay": [0x0000006F],
    # bne x10,x0,+8; jal x0,0; ebreak: hart 0 goes on for ever, and all others stop
    "hart_0_goes_on": [0x00051463, 0x0000006F, 0x00100073],
    # addi x5,x5,1; bne x5,x0,0x80000000: a loop backwards; ebreak
    "count_up": [0x00128293, 0xFE029EE3, 0x00100073],
    # lui x8,0x80001; addi x9,x8,64; then for ever: lw x5,0(x8); addi x5,x5,1; sw x5,0(x8); amoadd.w x6,x5,(x9);
    # lr.w x7,(x9); sc.w x28,x5,(x9); lb x29,1(x8); sh x5,2(x8); lhu x30,2(x8); sb x30,5(x8)
    "all_accesses_for_ever": [
        0x80001437, 0x04040493, 0x00042283, 0x00128293, 0x00542023, 0x0054A32F, 0x1004A3AF, 0x1854AE2F, 0x00140E83,
        0x00541123, 0x00245F03, 0x01E402A3, 0xFD9FF06F,
    ],
    # lui x5,0x1; jalr x0,4(x5): to 00001004, outside of RAM
    "jump_low": [0x000012B7, 0x00428067],
    # lui x5,0x80000; jalr x6,6(x5): to an address that isn't a multiple of 4
    "jalr_by_six": [0x800002B7, 0x00628367],
    # lui x5,0x80000; jalr x6,13(x5): bit 0 is cleared; addi x10,x0,1 (passed over); ebreak
    "jalr_odd": [0x800002B7, 0x00D28367, 0x00100513, 0x00100073],
    # beq x0,x0 to pc + 6; bne x0,x0 to pc + 6, which isn't taken; ebreak
    "branch_by_six": [0x00000363],
    "branch_by_six_not_taken": [0x00001363, 0x00100073],
    # lui x6,0x80001; slli x7,x10,2; add x6,x6,x7; lr.w x5,(x6): each hart reserves its own word;
    # then addi x10,x10,3; addi x17,x0,93; addi x5,x5,1; mul x8,x5,x17; ecall; addi x9,x9,1 and more
    "reserve_own_word": [
        0x80001337, 0x00251393, 0x00730333, 0x100322AF, 0x00350513, 0x05D00893, 0x00128293,
        0x03128433, 0x00000073, 0x00148493, 0x00148493, 0x00148493, 0x00148493,
    ],
    # lui x6,0x80001; bne x10,x0,0x80000014; lb x5,0(x6); lh x5,0(x6); lw x5,0(x6); addi x5,x0,7; sb
    # x5,0(x6); sb x5,1(x6); addi x7,x0,9; sb x7,1(x6); sb x7,2(x6); sb x7,3(x6); sb x7,4(x6); ebreak:
    # hart 1 writes bytes that hart 0 loads, and the byte behind them
    "bytes_behind_loads": [
        0x80001337, 0x00051863, 0x00030283, 0x00031283, 0x00032283, 0x00700293, 0x00530023,
        0x005300A3, 0x00900393, 0x007300A3, 0x00730123, 0x007301A3, 0x00730223, 0x00100073,
    ],
    # lui x6,0x80001; bne x10,x0,0x80000010; lb x5,1(x6); ebreak; addi x5,x0,7; sb x5,1(x6); sb x5,0(x6);
    # ebreak: hart 1 writes the byte that hart 0 loads, and then the one before it
    "bytes_before_a_load": [
        0x80001337, 0x00051663, 0x00130283, 0x00100073, 0x00700293, 0x005300A3, 0x00530023, 0x00100073,
    ],
    # auipc x6,0; addi x6,x6,256; lr.w x5,(x6); lw x7,4(x6); bne x7,x0,+8; addi x9,x6,8; amoadd.w x7,x6,(x9); jal x1,+20;
    # sc.w x8,x6,(x6); addi x10,x8,0; addi x17,x0,93; ecall; jalr x0,0(x1): between LR and SC stand a load, a branch, an
    # AMO and a call
    "reserves_across_a_call": [
        0x00000317, 0x10030313, 0x100322AF, 0x00432383, 0x00039463, 0x00830493, 0x0064A3AF, 0x014000EF, 0x1863242F,
        0x00040513, 0x05D00893, 0x00000073, 0x00008067,
    ],
    # auipc x6,0; addi x6,x6,256; addi x7,x6,4; lr.w x5,(x6); bne x10,x0,+8; lr.w x5,(x7); sc.w x8,x6,(x6); sc.w x9,x6,(x7);
    # slli x9,x9,1; add x10,x8,x9; addi x17,x0,93; ecall: hart 0 reserves a second word behind the first, and then stores to both
    "reserves_twice": [
        0x00000317, 0x10030313, 0x00430393, 0x100322AF, 0x00051463, 0x1003A2AF, 0x1863242F, 0x1863A4AF, 0x00149493,
        0x00940533, 0x05D00893, 0x00000073,
    ],
    # lui x5,0x10; sw x0,12(x5): outside RAM
    "store_below_ram": [0x000102B7, 0x0002A623],
    # 40 times addi x5,x5,1; all in a chain
    "long_chain": [0x00128293] * 40,
    # 16 times addi x5,x5,1; all in a chain
    "chain": [0x00128293] * 16,
    # twenty loads of x5 from 0(x0); twenty stores
    "twenty_loads": [0x00002283] * 20,
    "twenty_stores": [0x00502023] * 20,
    # lui x5,0x80000; addi x6,x0,-1; addi x7,x0,7; div, rem, mulh, mulhsu, mulhu, mul of x5 and x6;
    # div, divu, rem, remu of x7 and x0
    "products": [
        0x800002B7, 0xFFF00313, 0x00700393, 0x0262C433, 0x0262E4B3, 0x02631533, 0x026325B3,
        0x02633633, 0x026306B3, 0x0203C733, 0x0203D7B3, 0x0203E833, 0x0203F8B3,
    ],
    # all of RV32I that computes, on x5 = 80000005 and x6 = fffffff3
    "arithmetic": [
        0x800002B7, 0x00528293, 0xFF300313, 0x006283B3, 0x40628433, 0x006294B3, 0x0062A533,
        0x0062B5B3, 0x0062C633, 0x0062D6B3, 0x4062D733, 0x0062E7B3, 0x0062F833, 0x8002A893,
        0x8002B913, 0xFFF2C993, 0x7FF2EA13, 0x00F2FA93, 0x01F29B13, 0x01F2DB93, 0x41F2DC13,
        0xFFFFFC97, 0x00100073,
    ],
    # words of each row of the tables, and words that fit none
    "all_kinds": [
        0x027302B3, 0x100322AF, 0x187322AF, 0x101322AF, 0x00000000, 0xFFFFFFFF, 0x00102283,
        0x00002283, 0x005010A3, 0x00502023, 0x800012B7, 0xFFFFF317, 0x010000EF, 0xFFDFF06F,
        0x00828067, 0x00208863, 0xFE209EE3, 0x0020C463, 0x0020D463, 0x0020E463, 0x0020F463,
        0xFFC30283, 0x00031283, 0x00032283, 0x00034283, 0x00035283, 0x00530023, 0x00531023,
        0x00532023, 0xFFF30293, 0x00032293, 0x00033293, 0x00034293, 0x00036293, 0x00037293,
        0x00331293, 0x00335293, 0x40335293, 0x007302B3, 0x407302B3, 0x007312B3, 0x007322B3,
        0x007332B3, 0x007342B3, 0x007352B3, 0x407352B3, 0x007362B3, 0x007372B3, 0x027312B3,
        0x027322B3, 0x027332B3, 0x027342B3, 0x027352B3, 0x027362B3, 0x027372B3, 0x0FF0000F,
        0x0000000F, 0x0000100F, 0x00000073, 0x00100073, 0x00200073, 0x007322AF, 0x087322AF,
        0x207322AF, 0x407322AF, 0x607322AF, 0x807322AF, 0xA07322AF, 0xC07322AF, 0xE07322AF,
        0x047322AF, 0x027322AF, 0x067322AF, 0x147322AF, 0x1E7322AF, 0x007332AF, 0x00009067,
        0x02031293, 0x20335293, 0x0000A063,
    ],
}

MORE = {
    "empty": b"",
    "bytes_51": GOOD[:51],
    "magic": patched(GOOD, 3, b"G"),
    "bits_64": patched(GOOD, 4, b"\2"),
    "big_endian": patched(GOOD, 5, b"\2"),
    "ident_version": patched(GOOD, 6, b"\0"),
    "version": patched(GOOD, 20, word(2)),
    "type": patched(GOOD, 16, half(3)),
    "machine": patched(GOOD, 18, half(62)),
    "header_size": patched(GOOD, 40, half(64)),
    "program_header_size": patched(GOOD, 42, half(56)),
    "table_past_end": GOOD[:83],
    "table_wraps": patched(GOOD, 28, word(0xFFFFFFE0)),
    "no_headers": patched(GOOD, 44, half(0)),
    "not_loadable": patched(GOOD, TYPE, word(4)),
    "bytes_past_end": GOOD[:-1],
    "bytes_wrap": patched(GOOD, OFFSET, word(0xFFFFFFFC)),
    "size_0": patched(patched(GOOD, FILE_SIZE, word(0)), SIZE, word(0)),
    "size_below_file": patched(GOOD, SIZE, word(8)),
    "below_ram": build(FIRST, at=BASE - 4, entry=BASE),
    "past_ram": build([NOP], at=BASE + 0xFFFC, size=8, entry=BASE + 0xFFFC),
    "page_past_ram": build(FIRST, more=[(BASE + 0x10000, b"\7", R | W, 0x1000)]),
    "address_wraps": build([NOP], at=0xFFFFFFFC, size=0x10000, entry=BASE),
    "overlap": build(FIRST, more=[(BASE + 11, b"\0", R, 1)]),
    "no_code": build(FIRST, flags=R),
    "two_codes": build(FIRST, more=[(BASE + 16, bytes(4), R | X, 4)]),
    "writable_code": build(FIRST, flags=R | W | X),
    "code_at_2": build(FIRST, at=BASE + 2, entry=BASE + 4),
    "code_of_13": build(FIRST, size=13),
    "entry_odd": build(FIRST, entry=BASE + 2),
    "entry_below": build(FIRST, at=BASE + 4, entry=BASE),
    "entry_behind": build(FIRST, entry=BASE + 12),
    # Two things wrong at once: the earlier check answers.
    "machine_and_type": patched(patched(GOOD, 18, half(62)), 16, half(3)),
    "overlap_and_no_code": build(FIRST, flags=R, more=[(BASE + 8, bytes(4), R, 4)]),
    "past_end_before_size_0": patched(
        build(FIRST, size=0, more=[(BASE + 16, bytes(4), R, 4)]), OFFSET + 32, word(9999)
    ),
    "outside_and_overlap": build(
        FIRST, more=[(BASE + 0x20000, bytes(4), R, 4), (BASE, bytes(4), R, 4)]
    ),
    "writable_and_odd": build(FIRST, flags=R | W | X, size=13, entry=BASE + 1),
    # Accepted.
    "last_word": build([NOP], at=BASE + 0xFFC, entry=BASE + 0xFFC),
    "last_word_and_a_byte": build([NOP], at=BASE + 0xFFC, entry=BASE + 0xFFC, size=5),
    "eight_segments": build(FIRST, more=spread(7)),
    "nine_segments": build(FIRST, more=spread(8)),
    "beside": build(FIRST, more=[(BASE + 12, b"\1\2\3", R | W, 100)]),
    "with_a_note": patched(build(FIRST, more=[(0, b"note", R, 4)]), 84, word(4)),
    "entry_in_the_middle": build(FIRST, entry=BASE + 4),
    "zeros_behind": build(FIRST, size=20),
    "no_bytes": build([], size=8),
    "higher": build(
        FIRST, at=BASE + 0x1000, entry=BASE + 0x1000, more=[(BASE, b"data", R | W, 64)]
    ),
    # The text lies at 80001000.
    "put_out_a_text": build(
        memory_images.PUT_OUT_A_TEXT, more=[(BASE + 0x1000, b"SMT", R | W, 8)]
    ),
    # The stack begins where the code does, behind 64 bytes of RAM.
    "stack_below_ram": build(
        memory_images.STACK_BELOW_RAM, at=BASE + 0x40, entry=BASE + 0x40
    ),
    # Four files have an object of one name each.
    "one_name_in_four_files": with_names(
        build(FIRST, more=[(BASE + 0x1000, b"", R | W, 16)]),
        [
            name
            for k, file in enumerate(["a.c", "b.c", "c.c", "d.c"])
            for name in [(file, 0, SOURCE_FILE), ("turn", BASE + 0x1000 + 4 * k, OBJECT)]
        ],
    ),
    "sixteen_mib": build(FIRST, more=[(BASE + 0x1000, b"\7", R | W, 0xFFF000)]),
}


def main():
    os.makedirs(FOLDER, exist_ok=True)
    programs = PROGRAMS | memory_images.PROGRAMS | conditional_images.PROGRAMS
    files = {name: build(words) for name, words in programs.items()} | MORE | code_images.IMAGES
    for name, data in files.items():
        with open(f"{FOLDER}/{name}.elf", "wb") as file:
            file.write(data)


if __name__ == "__main__":
    main()
