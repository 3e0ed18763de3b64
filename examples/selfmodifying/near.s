# A program that patches its own next instruction. Where the patch is executed the hart ends with 9, else with 5.

    .globl _start
_start:
    lui s0, %hi(_start)     # 80000000
    lw t0, %lo(new)(s0)
    sw t0, %lo(patched)(s0) # the next word
patched:
    li a0, 5                # becomes li a0, 9
    li a7, 93
    ecall
new:
    li a0, 9                # the word that is put in its place
