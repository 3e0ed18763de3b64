# An endless loop of four instructions, without any access to memory. The branch ends it after 2^32 rounds alone.
        .section .text
        .globl  _start
_start:
        addi    t0, t0, 1
        add     t1, t1, t0
        mul     t2, t1, t0
        bne     t0, zero, _start
