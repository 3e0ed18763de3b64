/* Each hart has a stack of its own: it fills a thousand bytes of it with its number, waits for all the others, and ends with how many
   of them have changed. */
#include "hart.h"

static uint32_t filled;

uint32_t run_hart(uint32_t hart, uint32_t harts)
{
    volatile uint8_t own[1000];
    for (uint32_t k = 0; k < sizeof own; k++)
        own[k] = (uint8_t)(hart + 1);
    __atomic_fetch_add(&filled, 1, __ATOMIC_SEQ_CST);
    while (__atomic_load_n(&filled, __ATOMIC_SEQ_CST) < harts)
        ;
    uint32_t changed = 0;
    for (uint32_t k = 0; k < sizeof own; k++)
        changed += own[k] != (uint8_t)(hart + 1);
    return changed;
}
