/* The MCS lock: each waits at its own node, and the one before it lets it go on.
   From: J. M. Mellor-Crummey and M. L. Scott, Algorithms for scalable synchronization on shared-memory multiprocessors,
   ACM Transactions on Computer Systems 9(1), 1991.
   Harts: 2, 3, 4
   Asked: --forall counter={HARTS*ROUNDS}: no addition is lost.
   Wrong: -DLINK_FIRST --never-stuck: begins to wait behind its link, when it may have been let go already. */
#include "suite.h"

/* The node of hart k has the number k + 1; 0 is none. */
static shared tail, next[HARTS], waits[HARTS];

static inline void acquire(uint32_t me)
{
    next[me] = 0;
    uint32_t before = exchange(&tail, me + 1);
    if (before != 0) {
#ifdef LINK_FIRST
        next[before - 1] = me + 1;
        waits[me] = 1;
#else
        waits[me] = 1;
        next[before - 1] = me + 1;
#endif
        while (waits[me] != 0) {
        }
    }
}

static inline void release(uint32_t me)
{
    uint32_t behind = next[me];
    if (behind == 0) {
        if (compare_and_swap(&tail, me + 1, 0)) {
            return;
        }
        do {
            behind = next[me];
        } while (behind == 0);
    }
    waits[behind - 1] = 0;
}

#include "counter.h"
