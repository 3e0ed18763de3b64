# As waiting.s, but each of the 40 instructions waits for the one before it, so that they wait for 40 registers.
        .section .text
        .globl  _start
_start:
        bne     a0, zero, 1f
        mul     t0, a1, a1
        .rept   40
        add     t0, t0, a1
        .endr
        ebreak
1:      addi    t0, t0, 1
        add     t1, t1, t0
        mul     t2, t1, t0
        bne     t0, zero, 1b
