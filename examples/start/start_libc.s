# The start of start.s for a program with a C library, which has thread-local variables: errno is one. Each hart has its own, at the
# top of its stack. What they begin with is copied from the data; what has no first value is 0, as RAM is.

    .section .text.start, "ax"
    .globl _start
_start:
    la sp, ram_end
    la t0, stack_size
    mul t0, t0, a0
    sub sp, sp, t0
    la t0, thread_locals_size
    sub sp, sp, t0          # the top of this hart's stack, below its thread-local variables
    mv tp, sp
    la t0, thread_locals    # the first values, byte for byte
    la t1, thread_locals_end
    mv t2, tp
1:  beq t0, t1, 2f
    lbu t3, 0(t0)
    sb t3, 0(t2)
    addi t0, t0, 1
    addi t2, t2, 1
    j 1b
2:  call run_hart
    .globl _exit
_exit:                      # the library calls this at the end of exit, and in abort: it ends the hart that calls
    li a7, 93               # ends the hart with what a0 holds
    ecall

    .text
    .globl put_byte
put_byte:
    li a7, 1                # puts out the low byte of a0
    ecall
    ret
