# As near.s, with an instruction between the store and the one that it patches.

    .globl _start
_start:
    lui s0, %hi(_start)     # 80000000
    lw t0, %lo(new)(s0)
    sw t0, %lo(patched)(s0) # the next word but one
    nop
patched:
    li a0, 5                # becomes li a0, 9
    li a7, 93
    ecall
new:
    li a0, 9                # the word that is put in its place
