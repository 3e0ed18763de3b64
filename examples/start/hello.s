# Puts out the two letters of a text in memory, and ends with 0. No stack is needed.
    .section .text.start, "ax"
    .globl _start
_start:
    la   s0, text
1:  lbu  a0, 0(s0)          # the next letter; 0 ends the text
    beqz a0, 2f
    li   a7, 1              # puts out the low byte of a0
    ecall
    addi s0, s0, 1
    j    1b
2:  li   a7, 93             # ends the hart with what a0 holds: 0
    ecall

    .data
text:
    .asciz "hi"
