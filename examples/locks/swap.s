# A spin lock by AMOSWAP: who finds 0 and leaves 1, in one step, has the lock.
    .macro acquire
    li t1, 1
1:  amoswap.w.aq t2, t1, (s0)
    bnez t2, 1b
    .endm

    .macro release
    sw zero, 0(s0)
    .endm

    .equ ROUNDS, 8
    .include "count.s"
