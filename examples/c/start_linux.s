# The same as start.s for Linux, as QEMU's user mode makes its calls. HART and HARTS are given to the assembler. Linux gives a stack.

    .section .text.start, "ax"
    .globl _start
_start:
    li a0, HART
    li a1, HARTS
    call run_hart
    li a7, 93               # exit with the low byte of a0
    ecall

    .text
    .globl put_byte
put_byte:
    addi sp, sp, -16
    sb a0, 0(sp)
    li a0, 1                # write to standard output ..
    mv a1, sp               # .. from here ..
    li a2, 1                # .. one byte
    li a7, 64
    ecall
    addi sp, sp, 16
    ret
