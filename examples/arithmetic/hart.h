/* The frame of a program. A program is one function, `run_hart`; with this file it is compiled for a hart of the simulator,
   without any access to memory, and for the machine that it is compared with. */
#include <stdint.h>

/* What hart number `hart` of `harts` does. It ends with the number that is returned. */
static uint32_t run_hart(uint32_t hart, uint32_t harts);

#ifdef __riscv

/* The simulator's calls: the number of the call is in x17 (a7), its argument in x10 (a0). A call changes no register. */
enum { PUT_BYTE = 1, END_HART = 93 };

static inline void put_byte(uint32_t byte)
{
    register uint32_t argument __asm__("a0") = byte;
    register uint32_t number __asm__("a7") = PUT_BYTE;
    __asm__ volatile("ecall" : : "r"(argument), "r"(number));
}

static inline _Noreturn void end_hart(uint32_t status)
{
    register uint32_t argument __asm__("a0") = status;
    register uint32_t number __asm__("a7") = END_HART;
    __asm__ volatile("ecall" : : "r"(argument), "r"(number));
    __builtin_unreachable();
}

/* The entry. A hart begins with its number in x10 (a0) and with how many harts there are in x11 (a1), just where C has a
   function's first two arguments. */
_Noreturn void _start(uint32_t hart, uint32_t harts)
{
    end_hart(run_hart(hart, harts));
}

#else

#include <stdio.h>
#include <stdlib.h>

static int has_put = 0;

static inline void put_byte(uint32_t byte)
{
    printf("%s%02x", has_put ? "" : " ", (unsigned)(byte & 255));
    has_put = 1;
}

/* Prints a line for each of the harts, as many as the first argument says, else one: the bytes that it puts out, and what it
   ends with. */
int main(int count, char **words)
{
    uint32_t harts = count > 1 ? (uint32_t)atoi(words[1]) : 1;
    for (uint32_t hart = 0; hart < harts; hart++) {
        printf("hart %u output", (unsigned)hart);
        has_put = 0;
        uint32_t status = run_hart(hart, harts);
        printf("%s ended %u\n", has_put ? "" : " -", (unsigned)status);
    }
    return 0;
}

#endif
