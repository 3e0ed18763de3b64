/* Dekker's lock, for two harts: the first that was found.
   From: E. W. Dijkstra, Over de sequentialiteit van procesbeschrijvingen (EWD 35), 1962 or 1963, who names Dekker; and
   Cooperating sequential processes (EWD 123), 1965.
   Harts: 2
   Asked: --forall counter={HARTS*ROUNDS}: no addition is lost.
   Wrong: -DNO_TURN --never-stuck: nobody gives way, so that both may wait for ever.
   Wrong: -DLOOK_FIRST: looks at the other one's flag before it sets its own, so that both may find it down. */
#include "suite.h"

static shared flag[2], turn;

static inline void acquire(uint32_t me)
{
    uint32_t other = 1 - me;
#ifdef LOOK_FIRST
    while (flag[other] != 0) {
    }
    flag[me] = 1;
#else
    flag[me] = 1;
    while (flag[other] != 0) {
#ifndef NO_TURN
        if (turn != me) {
            flag[me] = 0;
            while (turn != me) {
            }
            flag[me] = 1;
        }
#endif
    }
#endif
}

static inline void release(uint32_t me)
{
    turn = 1 - me;
    flag[me] = 0;
}

#include "counter.h"
