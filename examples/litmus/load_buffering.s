# Load buffering (LB). Each of two harts reads a word of its own, and then writes the other's; it ends with what it has read. The two
# words are 0 at the start: hart h's own at 4 * h(s0).

    .globl _start
_start:
    lui s0, 0x80001         # 80001000, behind the code
    slli t0, a0, 2
    add t1, s0, t0          # this hart's word
    xori t0, t0, 4
    add t2, s0, t0          # the other's
    li t3, 1
    lw a0, 0(t1)
    sw t3, 0(t2)
    li a7, 93
    ecall
