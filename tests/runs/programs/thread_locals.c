/* Thread-local variables, with and without a first value, are each hart's own. Hart h puts out h, 3 + h and the letter a + h, and ends
   with 0; with 1, 2 or 3 where the library's errno isn't its own, or a place isn't aligned. */
#include "hart.h"
#include <errno.h>
#include <stdlib.h>

static _Thread_local uint32_t zero;
static _Thread_local uint32_t three = 3;
static _Thread_local uint64_t wide;
static _Thread_local char letter = 'a';

/* How many harts have come to the middle. */
static uint32_t arrived;

uint32_t run_hart(uint32_t hart, uint32_t harts)
{
    zero += hart;
    three += hart;
    letter = (char)(letter + hart);
    errno = (int)hart;
    __atomic_fetch_add(&arrived, 1, __ATOMIC_SEQ_CST);
    while (__atomic_load_n(&arrived, __ATOMIC_SEQ_CST) < harts)
        ;
    put_byte(zero);
    put_byte(three);
    put_byte((uint8_t)letter);
    if (errno != (int)hart)
        return 1;
    if (hart == 0)
        strtol("99999999999999999999", NULL, 10);
    if (hart == 0 ? errno != ERANGE : errno != (int)hart)
        return 2;
    return (uintptr_t)&wide % 8 != 0 || (uintptr_t)&zero % 4 != 0 ? 3 : 0;
}
