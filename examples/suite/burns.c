/* Burns's lock, with one bit for each hart: the least that there may be.
   From: J. E. Burns and N. A. Lynch, Mutual exclusion using indivisible reads and writes, Allerton Conference on
   Communication, Control and Computing, 1980; Bounds on shared memory for mutual exclusion, Information and Computation
   107(2), 1993.
   Harts: 2, 3, 4
   Asked: --forall counter={HARTS*ROUNDS}: no addition is lost.
   Wrong: -DNO_SECOND_LOOK: sets its flag and doesn't look again at harts of smaller numbers. */
#include "suite.h"

static shared flag[HARTS];

static inline int one_below(uint32_t me)
{
    for (uint32_t other = 0; other < me; other++) {
        if (flag[other] != 0) {
            return 1;
        }
    }
    return 0;
}

static inline void acquire(uint32_t me)
{
    do {
        flag[me] = 0;
        while (one_below(me)) {
        }
        flag[me] = 1;
#ifdef NO_SECOND_LOOK
    } while (0);
#else
    } while (one_below(me));
#endif
    for (uint32_t other = me + 1; other < HARTS; other++) {
        while (flag[other] != 0) {
        }
    }
}

static inline void release(uint32_t me)
{
    flag[me] = 0;
}

#include "counter.h"
