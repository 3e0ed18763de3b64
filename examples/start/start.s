# Where a hart begins, and how it puts out a byte and ends.
#
# A hart begins with its number in a0 (x10) and with how many harts there are in a1 (x11), just where C has a function's first two
# arguments. All other registers are 0: it needs a stack. The stacks lie at the end of RAM, hart 0's last; program.ld says how
# large each is, and where RAM ends.

    .section .text.start, "ax"
    .globl _start
_start:
    la sp, ram_end
    la t0, stack_size
    mul t0, t0, a0
    sub sp, sp, t0          # the top of this hart's stack: ram_end - stack_size * hart
    call run_hart
    li a7, 93               # ends the hart with what a0 holds
    ecall

    .text
    .globl put_byte
put_byte:
    li a7, 1                # puts out the low byte of a0
    ecall
    ret
