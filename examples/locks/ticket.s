# A ticket lock: each takes a number, and waits until it is served. The harts enter in the order in which they came.
    .macro acquire
    li t1, 1
    amoadd.w.aq t2, t1, (s0)    # the number that is mine
1:  lw t3, 4(s0)                # the number that is served
    bne t3, t2, 1b
    .endm

    .macro release
    addi t2, t2, 1
    sw t2, 4(s0)
    .endm

    .equ ROUNDS, 8
    .include "count.s"
