/* Peterson's lock, for two harts.
   From: G. L. Peterson, Myths about the mutual exclusion problem, Information Processing Letters 12(3), 1981.
   Harts: 2
   Asked: --forall counter={HARTS*ROUNDS}: no addition is lost.
   Wrong: -DTURN_FIRST: sets its flag behind the turn, so that both may find the other one's flag down. */
#include "suite.h"

static shared flag[2], turn;

static inline void acquire(uint32_t me)
{
    uint32_t other = 1 - me;
#ifdef TURN_FIRST
    turn = other;
    flag[me] = 1;
#else
    flag[me] = 1;
    turn = other;
#endif
    while (flag[other] != 0 && turn == other) {
    }
}

static inline void release(uint32_t me)
{
    flag[me] = 0;
}

#include "counter.h"
