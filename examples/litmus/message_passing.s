# Message passing (MP). Hart 0 writes the data, and then a flag that says so; hart 1 reads the flag, and then the data. Hart 1 ends
# with 2 * flag + data. The two words are 0 at the start: the data at 0(s0), the flag at 4(s0).

    .globl _start
_start:
    lui s0, 0x80001         # 80001000, behind the code
    bnez a0, reader
    li t0, 1
    sw t0, 0(s0)            # the data
    sw t0, 4(s0)            # the flag
    j end
reader:
    lw t1, 4(s0)            # the flag
    lw t2, 0(s0)            # the data
    slli a0, t1, 1
    add a0, a0, t2
end:
    li a7, 93
    ecall
