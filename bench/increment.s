# An endless loop that adds 1 to a word of memory: a load, and a store that the next turn's load finds in flight. Each hart has a word of its own.
        .section .text
        .globl  _start
_start:
        lui     s0, 0x80001
        slli    t1, a0, 6
        add     s0, s0, t1
1:      lw      t0, 0(s0)
        addi    t0, t0, 1
        sw      t0, 0(s0)
        bne     s0, zero, 1b
