/* Each hart adds its number to a sum that all share, by an atomic addition, and puts out a letter of its own. */
#include "hart.h"

static uint32_t sum;

uint32_t run_hart(uint32_t hart, uint32_t harts)
{
    (void)harts;
    __atomic_fetch_add(&sum, hart, __ATOMIC_SEQ_CST);
    put_byte('A' + hart);
    return 0;
}
