/* The ticket lock: each takes a number, and waits until it is served.
   From: D. P. Reed and R. K. Kanodia, Synchronization with eventcounts and sequencers, Communications of the ACM 22(2),
   1979; by this name in J. M. Mellor-Crummey and M. L. Scott, Algorithms for scalable synchronization on shared-memory
   multiprocessors, ACM Transactions on Computer Systems 9(1), 1991.
   Harts: 2, 3, 4
   Asked: --forall counter={HARTS*ROUNDS}: no addition is lost.
   Wrong: -DTWO_STEPS: reads the number and writes the next one, so that two may have the same. */
#include "suite.h"

static shared next, served;

static inline void acquire(uint32_t me)
{
    (void)me;
#ifdef TWO_STEPS
    uint32_t mine = next;
    next = mine + 1;
#else
    uint32_t mine = fetch_add(&next, 1);
#endif
    while (served != mine) {
    }
}

static inline void release(uint32_t me)
{
    (void)me;
    served = served + 1;
}

#include "counter.h"
