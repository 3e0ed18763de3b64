"""The programs of tests/runs/images that load, store, reserve and add in memory.

The code begins at 80000000, but for STACK_BELOW_RAM, and the RAM that they use at 80001000.
"""

PROGRAMS = {
    # a word of two stores in flight and, by a load, of both: lui x6,0x80001; lui x5,0x11223; addi
    # x5,x5,836; addi x7,x0,170; sw x5,0(x6); sb x7,1(x6); lw x8,0(x6); ebreak
    "bytes_of_a_word": [
        0x80001337, 0x112232B7, 0x34428293, 0x0AA00393, 0x00532023, 0x007300A3, 0x00032403,
        0x00100073,
    ],
    # each hart reserves one word and stores its number: lui x6,0x80001; lr.w x5,(x6); sc.w
    # x7,x10,(x6); ebreak
    "reserve_and_store": [0x80001337, 0x100322AF, 0x18A323AF, 0x00100073],
    # hart 0 reserves and stores; the others write the last byte of its word: lui x6,0x80001; bne
    # x10,x0,0x80000014; lr.w x5,(x6); sc.w x7,x10,(x6); ebreak; sb x10,3(x6); ebreak
    "byte_into_a_reserved_word": [
        0x80001337, 0x00051863, 0x100322AF, 0x18A323AF, 0x00100073, 0x00A301A3, 0x00100073,
    ],
    # hart h writes its word and ends with the other's: lui x6,0x80001; slli x5,x10,2; add x7,x6,x5;
    # xori x5,x5,4; add x8,x6,x5; addi x9,x0,1; sw x9,0(x7); lw x10,0(x8); addi x17,x0,93; ecall
    "store_buffers": [
        0x80001337, 0x00251293, 0x005303B3, 0x0042C293, 0x00530433, 0x00100493, 0x0093A023,
        0x00042503, 0x05D00893, 0x00000073,
    ],
    # lw x5,1(x0)
    "load_word_at_1": [0x00102283],
    # lw x5,0(x0)
    "load_word_at_0": [0x00002283],
    # sh x5,1(x0)
    "store_half_at_1": [0x005010A3],
    # sw x5,0(x0)
    "store_word_at_0": [0x00502023],
    # auipc x6,0x00000; sw x5,0(x6)
    "store_into_code": [0x00000317, 0x00532023],
    # hart h makes the h-th of eight loads at or behind the end of 8192 bytes: lui x7,0x80002; slli
    # x5,x10,3; auipc x6,0x00000; add x6,x6,x5; jalr x0,12(x6); lh x8,1(x7); ebreak; lhu x8,-1(x7);
    # ebreak; lw x8,-2(x7); ebreak; lb x8,0(x7); ebreak; lbu x8,2047(x7); ebreak; lh x8,0(x7);
    # ebreak; lhu x8,2(x7); ebreak; lw x8,0(x7); ebreak
    "load_faults": [
        0x800023B7, 0x00351293, 0x00000317, 0x00530333, 0x00C30067, 0x00139403, 0x00100073,
        0xFFF3D403, 0x00100073, 0xFFE3A403, 0x00100073, 0x00038403, 0x00100073, 0x7FF3C403,
        0x00100073, 0x00039403, 0x00100073, 0x0023D403, 0x00100073, 0x0003A403, 0x00100073,
    ],
    # hart h makes the h-th of eight loads: the last ones in 8192 bytes of RAM, the first ones of
    # the code, one misaligned and outside, one below RAM: lui x7,0x80002; addi x9,x7,-2048; lui
    # x12,0x80000; slli x5,x10,3; auipc x6,0x00000; add x6,x6,x5; jalr x0,12(x6); lw x8,-4(x7);
    # ebreak; lhu x8,-2(x7); ebreak; lb x8,-1(x7); ebreak; lw x8,0(x12); ebreak; lhu x8,2(x12);
    # ebreak; lw x8,1(x7); ebreak; lb x8,-1(x12); ebreak; lw x8,-4(x12); ebreak
    "load_at_the_ends": [
        0x800023B7, 0x80038493, 0x80000637, 0x00351293, 0x00000317, 0x00530333, 0x00C30067,
        0xFFC3A403, 0x00100073, 0xFFE3D403, 0x00100073, 0xFFF38403, 0x00100073, 0x00062403,
        0x00100073, 0x00265403, 0x00100073, 0x0013A403, 0x00100073, 0xFFF60403, 0x00100073,
        0xFFC62403, 0x00100073,
    ],
    # hart h makes the h-th of eight stores: lui x7,0x80002; lui x12,0x80000; slli x5,x10,3; auipc
    # x6,0x00000; add x6,x6,x5; jalr x0,12(x6); sh x10,-1(x7); ebreak; sw x10,-2(x7); ebreak; sb
    # x10,0(x7); ebreak; sh x10,0(x7); ebreak; sw x10,-4(x12); ebreak; sb x10,3(x12); ebreak; sh
    # x10,2(x12); ebreak; sw x10,4(x12); ebreak
    "store_faults": [
        0x800023B7, 0x80000637, 0x00351293, 0x00000317, 0x00530333, 0x00C30067, 0xFEA39FA3,
        0x00100073, 0xFEA3AF23, 0x00100073, 0x00A38023, 0x00100073, 0x00A39023, 0x00100073,
        0xFEA62E23, 0x00100073, 0x00A601A3, 0x00100073, 0x00A61123, 0x00100073, 0x00A62223,
        0x00100073,
    ],
    # hart h makes the h-th of eight atomics: lui x7,0x80002; addi x13,x7,-2; lui x12,0x80000; slli
    # x5,x10,3; auipc x6,0x00000; add x6,x6,x5; jalr x0,12(x6); lr.w x8,(x13); ebreak; lr.w x8,(x7);
    # ebreak; sc.w x8,x10,(x13); ebreak; sc.w x8,x10,(x7); ebreak; sc.w x8,x10,(x12); ebreak;
    # amoadd.w x8,x10,(x13); ebreak; amoswap.w x8,x10,(x7); ebreak; amomaxu.w x8,x10,(x12); ebreak
    "atomic_faults": [
        0x800023B7, 0xFFE38693, 0x80000637, 0x00351293, 0x00000317, 0x00530333, 0x00C30067,
        0x1006A42F, 0x00100073, 0x1003A42F, 0x00100073, 0x18A6A42F, 0x00100073, 0x18A3A42F,
        0x00100073, 0x18A6242F, 0x00100073, 0x00A6A42F, 0x00100073, 0x08A3A42F, 0x00100073,
        0xE0A6242F, 0x00100073,
    ],
    # hart 0 writes 1, stops at a misaligned store, and has two more behind it; hart 1 loads the
    # three words and puts out their low bytes: lui x6,0x80001; addi x5,x0,1; bne x10,x0,0x8000001c;
    # sw x5,0(x6); sw x5,6(x6); sw x5,8(x6); lw x7,4(x6); addi x17,x0,1; lw x10,0(x6); ecall; lw
    # x10,4(x6); ecall; lw x10,8(x6); ecall; addi x10,x0,0; addi x17,x0,93; ecall
    "stop_between_stores": [
        0x80001337, 0x00100293, 0x00051A63, 0x00532023, 0x00532323, 0x00532423, 0x00432383,
        0x00100893, 0x00032503, 0x00000073, 0x00432503, 0x00000073, 0x00832503, 0x00000073,
        0x00000513, 0x05D00893, 0x00000073,
    ],
    # stores of one, two and four bytes in flight over each other, and loads of all widths of them:
    # lui x6,0x80001; lui x5,0x89abd; addi x5,x5,-273; addi x7,x0,-128; addi x8,x0,1; sw x5,0(x6);
    # sh x7,2(x6); sb x8,0(x6); sb x7,1(x6); lw x9,0(x6); lh x10,0(x6); lhu x11,2(x6); lb x12,1(x6);
    # lbu x13,3(x6); sw x0,0(x6); ebreak
    "overlaid_stores": [
        0x80001337, 0x89ABD2B7, 0xEEF28293, 0xF8000393, 0x00100413, 0x00532023, 0x00731123,
        0x00830023, 0x007300A3, 0x00032483, 0x00031503, 0x00235583, 0x00130603, 0x00334683,
        0x00032023, 0x00100073,
    ],
    # a load, and behind it a store into its word: lui x6,0x80001; addi x5,x0,7; lw x7,0(x6); sw
    # x5,0(x6); ebreak
    "load_before_a_store": [0x80001337, 0x00700293, 0x00032383, 0x00532023, 0x00100073],
    # a store whose number is a product, and a load of its word behind it: lui x6,0x80001; addi
    # x5,x0,7; mul x5,x5,x5; sw x5,0(x6); lw x7,0(x6); addi x8,x7,1; mul x9,x8,x8; ebreak
    "store_waits_for_a_product": [
        0x80001337, 0x00700293, 0x025282B3, 0x00532023, 0x00032383, 0x00138413, 0x028404B3,
        0x00100073,
    ],
    # loads into x0, and at last a misaligned one: lui x6,0x80001; lw x0,0(x6); lb x0,3(x6); addi
    # x5,x0,1; sw x5,0(x6); lw x7,0(x6); lhu x0,1(x6); ebreak
    "load_into_x0": [
        0x80001337, 0x00032003, 0x00330003, 0x00100293, 0x00532023, 0x00032383, 0x00135003,
        0x00100073,
    ],
    # hart 0 reserves and stores; the others try to store and then write the byte behind its word:
    # lui x6,0x80001; bne x10,x0,0x80000014; lr.w x5,(x6); sc.w x7,x10,(x6); ebreak; sc.w
    # x7,x10,(x6); sb x10,4(x6); ebreak
    "beside_a_reserved_word": [
        0x80001337, 0x00051863, 0x100322AF, 0x18A323AF, 0x00100073, 0x18A323AF, 0x00A30223,
        0x00100073,
    ],
    # hart 0 loads and adds 1; the others write 0: lui x6,0x80001; bne x10,x0,0x80000014; lw
    # x5,0(x6); addi x7,x5,1; ebreak; sw x0,0(x6); ebreak
    "store_of_the_same_number": [
        0x80001337, 0x00051863, 0x00032283, 0x00128393, 0x00100073, 0x00032023, 0x00100073,
    ],
    # lui x6,0x80001; seventeen times lw x5,0(x6); sw x5,0(x6); ebreak
    "seventeen_loads": [0x80001337] + [0x00032283] * 17 + [0x00532023, 0x00100073],
    # lui x6,0x80001; sixteen times lw x5,0(x6); lr.w x7,(x6); sc.w x8,x5,(x6); amoadd.w x9,x5,(x6);
    # lw x5,0(x6); sw x5,0(x6); ebreak
    "atomics_behind_loads": [0x80001337]
    + [0x00032283] * 16
    + [0x100323AF, 0x1853242F, 0x005324AF, 0x00032283, 0x00532023, 0x00100073],
    # lui x6,0x80001; seventeen times amoadd.w x0,x6,(x6); lw x5,0(x6); sw x5,0(x6); ebreak
    "seventeen_atomics": [0x80001337] + [0x0063202F] * 17 + [0x00032283, 0x00532023, 0x00100073],
    # lui x6,0x80001; seventeen times sw x6,0(x6); lw x5,0(x6); ebreak
    "seventeen_stores": [0x80001337] + [0x00632023] * 17 + [0x00032283, 0x00100073],
    # lui x6,0x80001; addi x5,x0,3; mul x5,x5,x5; bne x5,x0,0x80000050, expected behind; sixteen
    # times lw x7,0(x6), on the wrong path; lw x8,0(x6); ebreak
    "branch_over_loads": [0x80001337, 0x00300293, 0x025282B3, 0x04029263]
    + [0x00032383] * 16
    + [0x00032403, 0x00100073],
    # a function that calls itself without an end; the stack falls into the code: lui x2,0x80000;
    # addi x2,x2,64; addi x2,x2,-16; sw x1,0(x2); jal x1,0x80000008
    "stack_into_the_code": [0x80000137, 0x04010113, 0xFF010113, 0x00112023, 0xFF9FF0EF],
    # an SC without a reservation, one on another word, one after an SC, one after a store, one
    # after a second LR: lui x6,0x80001; addi x9,x6,4; addi x5,x0,7; sc.w x12,x5,(x6); lr.w x0,(x6);
    # sc.w x13,x5,(x9); sc.w x14,x5,(x6); lr.w x0,(x6); sw x5,0(x6); sc.w x15,x0,(x6); lr.w x0,(x6);
    # sw x5,0(x9); sc.w x16,x0,(x6); lr.w x0,(x6); lr.w x0,(x9); sc.w x17,x0,(x6); lr.w x0,(x6);
    # amoadd.w x0,x5,(x6); sc.w x18,x0,(x6); ebreak
    "sc_without_reservation": [
        0x80001337, 0x00430493, 0x00700293, 0x1853262F, 0x1003202F, 0x1854A6AF, 0x1853272F,
        0x1003202F, 0x00532023, 0x180327AF, 0x1003202F, 0x0054A023, 0x1803282F, 0x1003202F,
        0x1004A02F, 0x180328AF, 0x1003202F, 0x0053202F, 0x1803292F, 0x00100073,
    ],
    # the nine AMOs on 5 and -3: lui x6,0x80001; addi x5,x0,5; addi x7,x0,-3; amoswap.w x8,x5,(x6);
    # amoadd.w x9,x7,(x6); amoxor.w x10,x7,(x6); amoor.w x11,x5,(x6); amoand.w x12,x7,(x6); amomin.w
    # x13,x5,(x6); amomax.w x14,x5,(x6); amominu.w x15,x7,(x6); amomaxu.w.aqrl x16,x7,(x6); lw
    # x17,0(x6); ebreak
    "all_amos": [
        0x80001337, 0x00500293, 0xFFD00393, 0x0853242F, 0x007324AF, 0x2073252F, 0x405325AF,
        0x6073262F, 0x805326AF, 0xA053272F, 0xC07327AF, 0xE673282F, 0x00032883, 0x00100073,
    ],
    # amomin, amominu, amomax, amomaxu, amoadd and amoswap of -1 in memory and 1: lui x6,0x80001;
    # addi x5,x0,-1; addi x7,x0,1; sw x5,0(x6); amomin.w x8,x7,(x6); amominu.w x9,x7,(x6); sw
    # x5,0(x6); amomax.w x10,x7,(x6); sw x5,0(x6); amomaxu.w x11,x7,(x6); amoadd.w x12,x7,(x6);
    # amoswap.w x13,x7,(x6); lw x14,0(x6); ebreak
    "amo_extremes": [
        0x80001337, 0xFFF00293, 0x00100393, 0x00532023, 0x8073242F, 0xC07324AF, 0x00532023,
        0xA073252F, 0x00532023, 0xE07325AF, 0x0073262F, 0x087326AF, 0x00032703, 0x00100073,
    ],
    # each of these AMOs of -1 in memory and 1: lui x6,0x80001; addi x5,x0,-1; addi x7,x0,1; sw
    # x5,0(x6); amomin.w x8,x7,(x6); sw x5,0(x6); amominu.w x8,x7,(x6); sw x5,0(x6); amomax.w
    # x8,x7,(x6); sw x5,0(x6); amomaxu.w x8,x7,(x6); sw x5,0(x6); amoadd.w x8,x7,(x6); sw x5,0(x6);
    # amoswap.w x8,x7,(x6); ebreak
    "amos_of_minus_one": [
        0x80001337, 0xFFF00293, 0x00100393, 0x00532023, 0x8073242F, 0x00532023, 0xC073242F,
        0x00532023, 0xA073242F, 0x00532023, 0xE073242F, 0x00532023, 0x0073242F, 0x00532023,
        0x0873242F, 0x00100073,
    ],
    # a store, an AMO into x0, a load behind it, and one that needs what it loads: lui x6,0x80001;
    # addi x5,x0,5; sw x5,0(x6); amoadd.w x0,x5,(x6); lw x7,0(x6); addi x8,x7,1; ebreak
    "amo_into_x0": [
        0x80001337, 0x00500293, 0x00532023, 0x0053202F, 0x00032383, 0x00138413, 0x00100073,
    ],
    # the reader of an AMO's number: lui x6,0x80001; addi x5,x0,5; amoadd.w x7,x5,(x6); addi
    # x8,x7,1; ebreak
    "amo_and_its_reader": [0x80001337, 0x00500293, 0x005323AF, 0x00138413, 0x00100073],
    # a reservation, and a misaligned SC: lui x6,0x80001; lr.w x5,(x6); addi x7,x6,1; sc.w
    # x8,x5,(x7); ebreak
    "misaligned_sc": [0x80001337, 0x100322AF, 0x00130393, 0x1853A42F, 0x00100073],
    # each hart adds 1 to one word and ends with what was there: lui x6,0x80001; addi x7,x0,1;
    # amoadd.w x10,x7,(x6); addi x17,x0,93; ecall
    "add_to_one_word": [0x80001337, 0x00100393, 0x0073252F, 0x05D00893, 0x00000073],
    # each hart adds 1 to one word by LR and SC and ends with what was there: lui x6,0x80001; lr.w
    # x10,(x6); addi x7,x10,1; sc.w x8,x7,(x6); bne x8,x0,0x80000004; addi x17,x0,93; ecall
    "reserve_until_stored": [
        0x80001337, 0x1003252F, 0x00150393, 0x1873242F, 0xFE041AE3, 0x05D00893, 0x00000073,
    ],
    # hart h writes byte h mod 4 of word h div 4 and ends with the word as it loads it: lui
    # x6,0x80001; add x7,x6,x10; addi x5,x10,17; sb x5,0(x7); andi x8,x7,-4; lw x10,0(x8); addi
    # x17,x0,93; ecall
    "bytes_of_one_word": [
        0x80001337, 0x00A303B3, 0x01150293, 0x00538023, 0xFFC3F413, 0x00042503, 0x05D00893,
        0x00000073,
    ],
    # LB, LBU, LH and LHU of ff80, 7f00 and their bytes, the last word of the code: auipc
    # x6,0x00000; lb x5,40(x6); lbu x7,40(x6); lb x8,43(x6); lh x9,40(x6); lhu x11,40(x6); lh
    # x12,42(x6); lhu x13,42(x6); lw x14,40(x6); ebreak; .word
    "signs": [
        0x00000317, 0x02830283, 0x02834383, 0x02B30403, 0x02831483, 0x02835583, 0x02A31603,
        0x02A35683, 0x02832703, 0x00100073, 0x7F00FF80,
    ],
    # each hart adds 1 to one word a thousand times by AMOADD and waits at a barrier for all; hart 0
    # then puts the word out, its low byte first; all end with 0: lui x6,0x80001; addi x5,x0,1; addi
    # x28,x0,1000; amoadd.w x0,x5,(x6); addi x28,x28,-1; bne x28,x0,0x8000000c; addi x7,x6,4;
    # amoadd.w x0,x5,(x7); lw x29,0(x7); bne x29,x11,0x80000020; bne x10,x0,0x8000004c; lw x8,0(x6);
    # addi x17,x0,1; addi x9,x0,4; addi x10,x8,0; ecall; srli x8,x8,8; addi x9,x9,-1; bne
    # x9,x0,0x80000038; addi x10,x0,0; addi x17,x0,93; ecall
    "counter_and_barrier": [
        0x80001337, 0x00100293, 0x3E800E13, 0x0053202F, 0xFFFE0E13, 0xFE0E1CE3, 0x00430393,
        0x0053A02F, 0x0003AE83, 0xFEBE9EE3, 0x02051263, 0x00032403, 0x00100893, 0x00400493,
        0x00040513, 0x00000073, 0x00845413, 0xFFF48493, 0xFE0498E3, 0x00000513, 0x05D00893,
        0x00000073,
    ],
    # each hart adds 1 to one word a hundred times, under a spin lock of LR and SC, and waits for
    # all; hart 0 ends with the word, the others with their numbers: lui x6,0x80001; addi
    # x28,x0,100; lr.w x5,(x6); bne x5,x0,0x80000008; addi x7,x0,1; sc.w x5,x7,(x6); bne
    # x5,x0,0x80000008; lw x8,4(x6); addi x8,x8,1; sw x8,4(x6); sw x0,0(x6); addi x28,x28,-1; bne
    # x28,x0,0x80000008; addi x9,x6,8; amoadd.w x0,x7,(x9); lw x29,0(x9); bne x29,x11,0x8000003c;
    # bne x10,x0,0x8000004c; lw x10,4(x6); addi x17,x0,93; ecall
    "counter_under_a_lock": [
        0x80001337, 0x06400E13, 0x100322AF, 0xFE029EE3, 0x00100393, 0x187322AF, 0xFE0298E3,
        0x00432403, 0x00140413, 0x00832223, 0x00032023, 0xFFFE0E13, 0xFC0E1CE3, 0x00830493,
        0x0074A02F, 0x0004AE83, 0xFEBE9EE3, 0x00051463, 0x00432503, 0x05D00893, 0x00000073,
    ],
}

# puts out the bytes of a segment of data up to a 0: auipc x6,0x00001; addi x17,x0,1; lbu x10,0(x6);
# beq x10,x0,0x8000001c; ecall; addi x6,x6,1; jal x0,0x80000008; addi x17,x0,93; ecall
PUT_OUT_A_TEXT = [
    0x00001317, 0x00100893, 0x00034503, 0x00050863, 0x00000073, 0x00130313, 0xFF1FF06F,
    0x05D00893, 0x00000073,
]

# The code begins at 80000040: auipc x2,0x00000; bne x10,x0,0x80000054; addi x2,x2,-16; sw
# x1,12(x2); jal x1,0x80000048; addi x10,x0,0; addi x17,x0,93; ecall
STACK_BELOW_RAM = [
    0x00000117, 0x00051863, 0xFF010113, 0x00112623, 0xFF9FF0EF, 0x00000513, 0x05D00893,
    0x00000073,
]
