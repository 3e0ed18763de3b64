# Each hart adds 1 to a shared counter ROUNDS times, by a load, an addition and a store, and holds a lock meanwhile. Without the
# lock another hart's store may come between the load and the store, and an addition is lost. Hart 0 waits for the others and ends
# with the counter, the others end with 0. The file that includes this one has the lock: macros `acquire` and `release`, which may
# change t1 to t3.
#
# The shared words, all 0 at the start: the lock's two at 0(s0) and 4(s0), the counter at 8(s0), and at 12(s0) how many harts have
# finished.

    .globl _start
_start:
    lui s0, 0x80001         # 80001000, behind the code
    li s1, ROUNDS
again:
    acquire
    lw t0, 8(s0)
    addi t0, t0, 1
    sw t0, 8(s0)
    release
    addi s1, s1, -1
    bnez s1, again

    li t0, 1
    addi t1, s0, 12
    amoadd.w zero, t0, (t1)
    bnez a0, other
wait:
    lw t0, 12(s0)
    bne t0, a1, wait
    lw a0, 8(s0)
    j end
other:
    li a0, 0
end:
    li a7, 93
    ecall
