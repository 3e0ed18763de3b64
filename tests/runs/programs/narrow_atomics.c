/* Atomic operations on bytes and halves, which share words with others. Each hart adds 1 to each of two bytes and two halves, sixty
   times, and swaps a byte of its own to and fro; hart 0 waits for all and looks at the sums. Then it makes each operation once. Ends
   with 0; else with the number of the first that was wrong. */
#include "hart.h"

enum { TIMES = 60 };

/* Two bytes and a half in one word, a half and two more bytes in the next. */
static struct {
    uint8_t one, other;
    uint16_t half;
    uint16_t upper;
    uint8_t swapped[2];
} shared;
static uint32_t done;

static uint32_t each_operation(void)
{
    static uint8_t beside[4] = {0x11, 0x22, 0x33, 0x44};
    uint8_t *byte = &beside[2];
    uint8_t expected = 0x33;
    if (__atomic_fetch_add(byte, 0xf0, __ATOMIC_SEQ_CST) != 0x33 || *byte != 0x23)
        return 1;
    if (__atomic_fetch_sub(byte, 0x24, __ATOMIC_SEQ_CST) != 0x23 || *byte != 0xff)
        return 2;
    if (__atomic_fetch_and(byte, 0x3c, __ATOMIC_SEQ_CST) != 0xff || *byte != 0x3c)
        return 3;
    if (__atomic_fetch_or(byte, 0x41, __ATOMIC_SEQ_CST) != 0x3c || *byte != 0x7d)
        return 4;
    if (__atomic_fetch_xor(byte, 0xff, __ATOMIC_SEQ_CST) != 0x7d || *byte != 0x82)
        return 5;
    if (__atomic_fetch_nand(byte, 0x83, __ATOMIC_SEQ_CST) != 0x82 || *byte != 0x7d)
        return 6;
    if (__atomic_exchange_n(byte, 0x55, __ATOMIC_SEQ_CST) != 0x7d || *byte != 0x55)
        return 7;
    if (__atomic_compare_exchange_n(byte, &expected, 1, 0, __ATOMIC_SEQ_CST, __ATOMIC_SEQ_CST) || expected != 0x55)
        return 8;
    if (!__atomic_compare_exchange_n(byte, &expected, 0x99, 0, __ATOMIC_SEQ_CST, __ATOMIC_SEQ_CST) || *byte != 0x99)
        return 9;
    return beside[0] == 0x11 && beside[1] == 0x22 && beside[3] == 0x44 ? 0 : 10;
}

uint32_t run_hart(uint32_t hart, uint32_t harts)
{
    uint8_t *own = &shared.swapped[hart % 2];
    for (uint32_t k = 0; k < TIMES; k++) {
        __atomic_fetch_add(&shared.one, 1, __ATOMIC_SEQ_CST);
        __atomic_fetch_add(&shared.other, 1, __ATOMIC_SEQ_CST);
        __atomic_fetch_add(&shared.half, 7, __ATOMIC_SEQ_CST);
        __atomic_fetch_sub(&shared.upper, 1, __ATOMIC_SEQ_CST);
        __atomic_fetch_xor(own, 1 << (hart / 2), __ATOMIC_SEQ_CST);
    }
    __atomic_fetch_add(&done, 1, __ATOMIC_SEQ_CST);
    if (hart != 0)
        return 0;
    while (__atomic_load_n(&done, __ATOMIC_SEQ_CST) < harts)
        ;
    if (shared.one != (uint8_t)(TIMES * harts) || shared.other != shared.one)
        return 20;
    if (shared.half != (uint16_t)(7 * TIMES * harts) || shared.upper != (uint16_t)(0 - TIMES * harts))
        return 21;
    if (shared.swapped[0] != 0 || shared.swapped[1] != 0)
        return 22;
    return each_operation();
}
