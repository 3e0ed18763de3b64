"""The images of programs that write their own code, for images.py: their code has W, but of those named `fixed`."""

from image import BASE, R, W, X, build

# auipc x6,0x00000; lw x5,28(x6); sw x5,16(x6): puts the last word in the place of the fifth; fence.i; addi x10,x0,5,
# which becomes addi x10,x0,9; addi x17,x0,93; ecall; addi x10,x0,9
PATCHES = [
    0x00000317, 0x01C32283, 0x00532823, 0x0000100F, 0x00500513, 0x05D00893, 0x00000073, 0x00900513,
]
# Each of five harts writes a word behind the code in its own way, and ends with what it then loads of it: auipc
# x6,0x00000; lw x5,116(x6); addi x7,x0,1; beq x10,x7,0x80000038; addi x7,x0,2; beq x10,x7,0x80000044; addi x7,x0,3;
# beq x10,x7,0x80000050; addi x7,x0,4; beq x10,x7,0x80000064; sw x5,120(x6); lw x10,120(x6); addi x17,x0,93; ecall; sh
# x5,126(x6); lw x10,124(x6); jal x0,0x80000030; sb x5,129(x6); lw x10,128(x6); jal x0,0x80000030; addi x8,x6,132; lr.w
# x9,(x8); sc.w x9,x5,(x8); lw x10,132(x6); jal x0,0x80000030; addi x8,x6,136; amoadd.w x9,x5,(x8); lw x10,136(x6); jal
# x0,0x80000030; .word 0x12345678; .word 1, five times
STORES = [
    0x00000317, 0x07432283, 0x00100393, 0x02750663, 0x00200393, 0x02750863, 0x00300393, 0x02750A63,
    0x00400393, 0x04750063, 0x06532C23, 0x07832503, 0x05D00893, 0x00000073, 0x06531F23, 0x07C32503,
    0xFF1FF06F, 0x085300A3, 0x08032503, 0xFE5FF06F, 0x08430413, 0x100424AF, 0x185424AF, 0x08432503,
    0xFD1FF06F, 0x08830413, 0x005424AF, 0x08832503, 0xFC1FF06F, 0x12345678, *[1] * 5,
]
# Hart 0 puts the last word in the place of the first that the others execute behind their branch: auipc x6,0x00000; bne
# x10,x0,0x8000001c; lw x5,40(x6); sw x5,28(x6); addi x10,x0,0; addi x17,x0,93; ecall; addi x10,x0,5; addi x17,x0,93;
# ecall; addi x10,x0,9
FOR_ANOTHER = [
    0x00000317, 0x00051C63, 0x02832283, 0x00532E23, 0x00000513, 0x05D00893, 0x00000073, 0x00500513,
    0x05D00893, 0x00000073, 0x00900513,
]
# Hart 0 does so, and then puts the old word back: auipc x6,0x00000; bne x10,x0,0x80000024; lw x5,48(x6); lw x7,36(x6);
# sw x5,36(x6); sw x7,36(x6); addi x10,x0,0; addi x17,x0,93; ecall; addi x10,x0,5; addi x17,x0,93; ecall; addi x10,x0,9
PUTS_BACK = [
    0x00000317, 0x02051063, 0x03032283, 0x02432383, 0x02532223, 0x02732223, 0x00000513, 0x05D00893,
    0x00000073, 0x00500513, 0x05D00893, 0x00000073, 0x00900513,
]
# A store over its own word, which a branch then comes back to: auipc x6,0x00000; lw x5,20(x6); sw x5,8(x6); beq
# x10,x0,0x80000008; ebreak; addi x10,x0,7
OWN_WORD = [0x00000317, 0x01432283, 0x00532423, 0xFE050EE3, 0x00100073, 0x00700513]
# An AMO adds 1 to the immediate of a word behind it: auipc x6,0x00000; lui x7,0x00100; addi x8,x6,16; amoadd.w
# x5,x7,(x8); addi x10,x0,5; addi x17,x0,93; ecall
BY_AMO = [0x00000317, 0x001003B7, 0x01030413, 0x007422AF, 0x00500513, 0x05D00893, 0x00000073]
# An LR and an SC put a word in the place of the one behind the SC: auipc x6,0x00000; lw x5,32(x6); addi x8,x6,20; lr.w
# x9,(x8); sc.w x9,x5,(x8); addi x10,x0,5; addi x17,x0,93; ecall; addi x10,x0,9
BY_SC = [
    0x00000317, 0x02032283, 0x01430413, 0x100424AF, 0x185424AF, 0x00500513, 0x05D00893, 0x00000073,
    0x00900513,
]
# A byte of the word behind it but one: auipc x6,0x00000; addi x5,x0,16; sb x5,19(x6); addi x0,x0,0; addi x10,x0,5;
# addi x17,x0,93; ecall: the 5 becomes 261
BY_BYTE = [0x00000317, 0x01000293, 0x005309A3, 0x00000013, 0x00500513, 0x05D00893, 0x00000073]

IMAGES = {
    "patches_code": build(PATCHES, flags=R | W | X),
    "patches_fixed_code": build(PATCHES),
    "stores_into_own_code": build(STORES, flags=R | W | X),
    "stores_into_fixed_code": build(STORES),
    "writes_for_another": build(FOR_ANOTHER, flags=R | W | X),
    "writes_and_puts_back": build(PUTS_BACK, flags=R | W | X),
    "stores_over_itself": build(OWN_WORD, flags=R | W | X),
    "patches_by_amo": build(BY_AMO, flags=R | W | X),
    "patches_by_sc": build(BY_SC, flags=R | W | X),
    "patches_a_byte": build(BY_BYTE, flags=R | W | X),
    "two_codes_one_writable": build(PATCHES, more=[(BASE + 32, bytes(4), R | W | X, 4)]),
}
