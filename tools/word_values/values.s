# Runs each operation of RV32IMA on each of the pairs below, and writes the words that come out to standard output, the
# lowest byte first: one table of 28 words for each operation, in the order of the list at the end of `_start`, and then
# the sign extensions. README.md says how it is run.

        .equ    SYS_WRITE, 64
        .equ    SYS_EXIT, 93

# The results of one instruction: s0 goes over the pairs, s2 over the results.
        .macro  table   instruction
        la      s0, pairs
        la      s1, pairs_end
1:      lw      a0, 0(s0)
        lw      a1, 4(s0)
        \instruction    a2, a0, a1
        sw      a2, 0(s2)
        addi    s2, s2, 4
        addi    s0, s0, 8
        bltu    s0, s1, 1b
        .endm

# What an atomic leaves in a word of memory that held the first of the pair; rs2 is the second.
        .macro  atomic  instruction
        la      s0, pairs
        la      s1, pairs_end
        la      s3, cell
1:      lw      a0, 0(s0)
        lw      a1, 4(s0)
        sw      a0, 0(s3)
        \instruction    a2, a1, (s3)
        bne     a2, a0, wrong           # it answers the old word
        lw      a2, 0(s3)
        sw      a2, 0(s2)
        addi    s2, s2, 4
        addi    s0, s0, 8
        bltu    s0, s1, 1b
        .endm

# The lowest bits of a word, with their sign.
        .macro  extend  word, bits
        li      a0, \word
        slli    a0, a0, 32 - \bits
        srai    a0, a0, 32 - \bits
        sw      a0, 0(s2)
        addi    s2, s2, 4
        .endm

        .option  norelax                 # no register points at the data
        .section .text
        .globl  _start
_start:
        la      s2, results
        table   add
        table   sub
        table   sll
        table   srl
        table   sra
        table   slt
        table   sltu
        table   mul
        table   mulh
        table   mulhsu
        table   mulhu
        table   div
        table   divu
        table   rem
        table   remu
        atomic  amoswap.w
        atomic  amoadd.w
        atomic  amoxor.w
        atomic  amoand.w
        atomic  amoor.w
        atomic  amomin.w
        atomic  amomax.w
        atomic  amominu.w
        atomic  amomaxu.w
        extend  0x00000000, 1
        extend  0x00000001, 1
        extend  0xFFFFFFFE, 1
        extend  0x00000001, 2
        extend  0x00000002, 2
        extend  0x0000007F, 8
        extend  0x00000080, 8
        extend  0x000000FF, 8
        extend  0x12345678, 8
        extend  0xFFFFFF7F, 8
        extend  0x000007FF, 12
        extend  0x00000800, 12
        extend  0x00000FFF, 12
        extend  0xABCDE123, 12
        extend  0x00000FFF, 13
        extend  0x00001000, 13
        extend  0x00001FFE, 13
        extend  0x00007FFF, 16
        extend  0x00008000, 16
        extend  0x12348765, 16
        extend  0xFFFF7FFF, 16
        extend  0x000FFFFE, 21
        extend  0x00100000, 21
        extend  0x001FFFFE, 21
        extend  0x3FFFFFFF, 31
        extend  0x40000000, 31
        extend  0x80000001, 31
        extend  0x7FFFFFFF, 32
        extend  0x80000000, 32
        extend  0xFFFFFFFF, 32

        li      a0, 1
        la      a1, results
        sub     a2, s2, a1
        li      a7, SYS_WRITE
        ecall
        li      a0, 0
        li      a7, SYS_EXIT
        ecall
wrong:
        li      a0, 1
        li      a7, SYS_EXIT
        ecall

        .section .data
        .balign 4
pairs:
        .word   0x00000000, 0x00000000
        .word   0x00000000, 0x00000001
        .word   0x00000001, 0x00000000
        .word   0x00000007, 0x00000000
        .word   0x00000007, 0x00000003
        .word   0xFFFFFFF9, 0x00000003
        .word   0x00000007, 0xFFFFFFFD
        .word   0xFFFFFFF9, 0xFFFFFFFD
        .word   0x80000000, 0x00000000
        .word   0x80000000, 0x00000001
        .word   0x80000000, 0xFFFFFFFF
        .word   0x80000000, 0x80000000
        .word   0x80000000, 0x7FFFFFFF
        .word   0x7FFFFFFF, 0x80000000
        .word   0x7FFFFFFF, 0x00000001
        .word   0x7FFFFFFF, 0x7FFFFFFF
        .word   0xFFFFFFFF, 0x00000000
        .word   0xFFFFFFFF, 0x00000001
        .word   0x00000001, 0xFFFFFFFF
        .word   0xFFFFFFFF, 0xFFFFFFFF
        .word   0xFFFFFFFF, 0x80000000
        .word   0x12345678, 0x9ABCDEF0
        .word   0xDEADBEEF, 0x0000001F
        .word   0x80000001, 0x00000020
        .word   0x80000001, 0x0000003F
        .word   0xAAAAAAAA, 0x55555555
        .word   0x0000FFFF, 0x00010000
        .word   0xFFFF0000, 0xFFFF0001
pairs_end:

        .section .bss
        .balign 4
cell:   .skip   4
results:
        .skip   4096
