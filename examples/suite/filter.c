/* The filter lock, Peterson's for more than two harts: each level holds back the one that came there last.
   From: G. L. Peterson, Myths about the mutual exclusion problem, Information Processing Letters 12(3), 1981; by this
   name in M. Herlihy and N. Shavit, The Art of Multiprocessor Programming, 2008, 2.4.
   Harts: 2, 3, 4
   Asked: --forall counter={HARTS*ROUNDS}: no addition is lost.
   Wrong: -DLAST_FIRST: says its level behind the name of the last, so that another one may find it lower. */
#include "suite.h"

static shared level[HARTS], last[HARTS];

static inline void acquire(uint32_t me)
{
    for (uint32_t at = 1; at < HARTS; at++) {
#ifdef LAST_FIRST
        last[at] = me;
        level[me] = at;
#else
        level[me] = at;
        last[at] = me;
#endif
        for (uint32_t other = 0; other < HARTS; other++) {
            while (other != me && level[other] >= at && last[at] == me) {
            }
        }
    }
}

static inline void release(uint32_t me)
{
    level[me] = 0;
}

#include "counter.h"
