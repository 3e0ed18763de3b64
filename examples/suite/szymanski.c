/* Szymanski's lock: a waiting room, whose door the last one in shuts behind all that came with it.
   From: B. K. Szymanski, A simple solution to Lamport's concurrent programming problem with linear wait, International
   Conference on Supercomputing, 1988.
   Harts: 2, 3, 4
   Asked: --forall counter={HARTS*ROUNDS}: no addition is lost.
   Wrong: -DNO_ORDER: doesn't wait for harts of smaller numbers that are in the room as well. */
#include "suite.h"

/* What a hart's flag says: it isn't here; wants to come in; waits for others at the door; stands in the door; is
   behind the shut one. */
enum { AWAY, WANTS, WAITS, IN_DOOR, INSIDE };

static shared flag[HARTS];

static inline int somebody_is(uint32_t stage)
{
    for (uint32_t other = 0; other < HARTS; other++) {
        if (flag[other] == stage) {
            return 1;
        }
    }
    return 0;
}

static inline void acquire(uint32_t me)
{
    flag[me] = WANTS;
    for (uint32_t other = 0; other < HARTS; other++) {
        while (flag[other] >= IN_DOOR) {
        }
    }
    flag[me] = IN_DOOR;
    if (somebody_is(WANTS)) {
        flag[me] = WAITS;
        while (!somebody_is(INSIDE)) {
        }
    }
    flag[me] = INSIDE;
#ifndef NO_ORDER
    for (uint32_t other = 0; other < me; other++) {
        while (flag[other] >= WAITS) {
        }
    }
#endif
}

static inline void release(uint32_t me)
{
    for (uint32_t other = me + 1; other < HARTS; other++) {
        uint32_t seen;
        do {
            seen = flag[other];
        } while (seen == WAITS || seen == IN_DOOR);
    }
    flag[me] = AWAY;
}

#include "counter.h"
