# An endless loop that writes three words of its own code, which nobody executes: each store decodes the word that it touches. Each hart has
# words of its own.
        .section .text
        .globl  _start
_start:
        lui     s0, 0x80001
        slli    t1, a0, 6
        add     s0, s0, t1
1:      sw      t1, 0(s0)
        sw      t1, 4(s0)
        sw      t1, 8(s0)
        bne     s0, zero, 1b
        .balign 4096
        .space  1024
