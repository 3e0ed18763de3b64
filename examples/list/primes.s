# Counts the primes below 50 by trial division and folds them into a checksum. The hart ends with the count in the low
# byte of its status and the checksum's upper half above it.

        .equ    LIMIT, 50
        .equ    EXIT, 93

        .section .text
        .globl  _start
_start:
        li      s0, 2                   # the candidate
        li      s1, 0                   # how many primes there are so far
        li      s2, 1                   # the checksum so far
        li      s3, LIMIT
        li      s4, 1103515245          # the multiplier of the checksum
next_candidate:
        bge     s0, s3, finish
        mv      a0, s0
        call    is_prime
        beqz    a0, skip
        addi    s1, s1, 1
        mul     s2, s2, s4
        add     s2, s2, s0
skip:
        addi    s0, s0, 1
        j       next_candidate

finish:
        srli    s2, s2, 16
        slli    s2, s2, 8
        or      a0, s2, s1
        li      a7, EXIT
        ecall

# Answers 1 in a0 where a0, which is 2 or more, is a prime, and else 0.
is_prime:
        li      t0, 2                   # the divisor
try_divisor:
        mul     t1, t0, t0
        bltu    a0, t1, prime
        remu    t2, a0, t0
        beqz    t2, composite
        addi    t0, t0, 1
        j       try_divisor
prime:
        li      a0, 1
        ret
composite:
        li      a0, 0
        ret
