#include "hart.h"

static volatile uint32_t lock;
static volatile uint32_t counter;

static void acquire(void)
{
    while (lock != 0) {
    }
    lock = 1;
}

static void release(void)
{
    lock = 0;
}

uint32_t run_hart(uint32_t hart, uint32_t harts)
{
    (void)hart;
    (void)harts;
    acquire();
    counter = counter + 1;
    release();
    return 0;
}
