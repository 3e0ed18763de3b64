/* Anderson's lock: a slot for each hart in a ring, and who leaves opens the next one.
   From: T. E. Anderson, The performance of spin lock alternatives for shared-memory multiprocessors, IEEE Transactions
   on Parallel and Distributed Systems 1(1), 1990.
   Harts: 2, 3, 4
   Asked: --forall counter={HARTS*ROUNDS}: no addition is lost.
   Wrong: -DFEW_SLOTS: a slot too few, so that two may find the same one open. */
#include "suite.h"

#ifdef FEW_SLOTS
#define SLOTS (HARTS - 1)
#else
#define SLOTS HARTS
#endif

static shared next, open[SLOTS] = {1};

static shared counter;

static inline uint32_t acquire(void)
{
    uint32_t slot = fetch_add(&next, 1) % SLOTS;
    while (open[slot] == 0) {
    }
    open[slot] = 0;
    return slot;
}

static inline void release(uint32_t slot)
{
    open[(slot + 1) % SLOTS] = 1;
}

uint32_t run_hart(uint32_t hart, uint32_t harts)
{
    (void)hart;
    (void)harts;
    for (uint32_t round = 0; round < ROUNDS; round++) {
        uint32_t slot = acquire();
        counter = counter + 1;
        release(slot);
    }
    return 0;
}
