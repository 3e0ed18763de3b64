# Independent reads of independent writes (IRIW). Hart 0 writes x and hart 1 writes y. Hart 2 reads x and then y, hart 3 reads y and
# then x. The readers end with 2 * first + second. The two words are 0 at the start: x at 0(s0) and y at 4(s0).

    .globl _start
_start:
    lui s0, 0x80001         # 80001000, behind the code
    andi t0, a0, 1
    slli t0, t0, 2
    add t1, s0, t0          # x for harts 0 and 2, y for harts 1 and 3
    srli t2, a0, 1
    bnez t2, reader
    li t3, 1
    sw t3, 0(t1)
    li a0, 0
    j end
reader:
    xori t0, t0, 4
    add t2, s0, t0          # the other word
    lw t3, 0(t1)
    lw t4, 0(t2)
    slli a0, t3, 1
    add a0, a0, t4
end:
    li a7, 93
    ecall
