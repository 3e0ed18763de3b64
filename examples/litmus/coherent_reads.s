# Coherence of two reads (CoRR). Hart 0 writes a word, and hart 1 reads it twice. Hart 1 ends with 2 * first + second. The word is
# at 0(s0), and 0 at the start.

    .globl _start
_start:
    lui s0, 0x80001         # 80001000, behind the code
    bnez a0, reader
    li t0, 1
    sw t0, 0(s0)
    j end
reader:
    lw t1, 0(s0)            # the first time
    lw t2, 0(s0)            # the second
    slli a0, t1, 1
    add a0, a0, t2
end:
    li a7, 93
    ecall
