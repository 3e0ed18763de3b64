# A spin lock by LR and SC: who has reserved the word, has found 0 there, and stores 1 before anyone writes the word, has the lock.
    .macro acquire
    li t1, 1
1:  lr.w.aq t2, (s0)
    bnez t2, 1b
    sc.w t2, t1, (s0)
    bnez t2, 1b
    .endm

    .macro release
    sw zero, 0(s0)
    .endm

    .equ ROUNDS, 8
    .include "count.s"
