# An endless loop with an atomic: it adds 1, 2, 3 and so on to a word of memory. Each hart has a word of its own.
        .section .text
        .globl  _start
_start:
        lui     s0, 0x80001
        slli    t1, a0, 6
        add     s0, s0, t1
1:      addi    t0, t0, 1
        amoadd.w t1, t0, (s0)
        add     t2, t2, t0
        bne     s0, zero, 1b
