#include "hart.h"

static uint32_t lock;
static volatile uint32_t counter;

static void acquire(void)
{
    while (__atomic_exchange_n(&lock, 1, __ATOMIC_ACQUIRE) != 0) {
    }
}

static void release(void)
{
    __atomic_store_n(&lock, 0, __ATOMIC_RELEASE);
}

uint32_t run_hart(uint32_t hart, uint32_t harts)
{
    (void)hart;
    (void)harts;
    acquire();
    counter = counter + 1;
    release();
    return 0;
}
