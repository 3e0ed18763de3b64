# A barrier. In each of ROUNDS rounds every hart writes the number of the round into a word of its own, waits at the barrier for all,
# adds up the words of all harts, and waits again before the next round. A sum that isn't the round's number for each hart is
# wrong: someone was let through before all had written. A hart ends with how many of its sums were wrong.
#
# The shared words, all 0 at the start: at 0(s0) how many harts have arrived, at 4(s0) how often all had; hart h's own at 16 + 4 * h.

    .equ ROUNDS, 3

    # The last to arrive sets the count back and lets all go on. Changes t0 to t2.
    .macro barrier
    lw t0, 4(s0)
    li t1, 1
    amoadd.w t2, t1, (s0)
    addi t2, t2, 1
    bne t2, a1, 1f
    sw zero, 0(s0)
    addi t0, t0, 1
    sw t0, 4(s0)
    j 2f
1:  lw t2, 4(s0)
    beq t2, t0, 1b
2:
    .endm

    .globl _start
_start:
    lui s0, 0x80001         # 80001000, behind the code
    slli s1, a0, 2
    add s1, s1, s0          # 16(s1) is this hart's own word
    li s2, 0                # the round
    li s3, 0                # how many sums were wrong
round:
    addi s2, s2, 1
    sw s2, 16(s1)
    barrier
    li t3, 0                # the sum
    mv t4, a1
    mv t5, s0
add:
    lw t6, 16(t5)
    add t3, t3, t6
    addi t5, t5, 4
    addi t4, t4, -1
    bnez t4, add
    mul t4, s2, a1
    beq t3, t4, right
    addi s3, s3, 1
right:
    barrier
    li t3, ROUNDS
    bne s2, t3, round
    mv a0, s3
    li a7, 93
    ecall
