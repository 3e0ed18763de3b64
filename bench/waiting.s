# Hart 0 multiplies, and then has 40 instructions that wait for the product; hart 1 runs the endless loop of loop.s.
        .section .text
        .globl  _start
_start:
        bne     a0, zero, 1f
        mul     t0, a1, a1
        .rept   40
        add     t1, t0, t0
        .endr
        ebreak
1:      addi    t0, t0, 1
        add     t1, t1, t0
        mul     t2, t1, t0
        bne     t0, zero, 1b
