/* A program in C that writes its own code: it calls a function, writes another instruction in the place of that function's first, and
   calls it again. Made by `image.sh --writable`. Puts out the two answers, 1 and 2, as digits. */
#include "hart.h"

/* In assembly, so that it is known which word does what. */
uint32_t answer(void);
__asm__(".text\n"
        ".globl answer\n"
        "answer:\n"
        "    li a0, 1\n"
        "    ret\n");

/* The word of `li a0, 2`. */
static const uint32_t two = 0x00200513;

uint32_t run_hart(uint32_t hart, uint32_t harts)
{
    (void)harts;
    if (hart != 0)
        return 0;
    put_byte('0' + answer());
    *(volatile uint32_t *)(uintptr_t)answer = two;
    /* What a hart of other machines needs to see its own stores; here it changes nothing. */
    __asm__ volatile("fence.i" ::: "memory");
    put_byte('0' + answer());
    return 0;
}
