# What is no lock: to look whether the word is 0, and then to set it. Another hart may look in between.
    .macro acquire
    li t1, 1
1:  lw t2, 0(s0)
    bnez t2, 1b
    sw t1, 0(s0)
    .endm

    .macro release
    sw zero, 0(s0)
    .endm

    .equ ROUNDS, 1
    .include "count.s"
