/* Lamport's bakery: who comes takes a number above all others, and the smallest one is served.
   From: L. Lamport, A new solution of Dijkstra's concurrent programming problem, Communications of the ACM 17(8), 1974.
   Harts: 2, 3, 4
   Asked: --forall counter={HARTS*ROUNDS}: no addition is lost.
   Wrong: -DNO_CHOOSING: doesn't wait for who is choosing, and may pass one that then has the same number. */
#include "suite.h"

#ifndef NO_CHOOSING
static shared choosing[HARTS];
#endif
static shared number[HARTS];

static inline void acquire(uint32_t me)
{
    uint32_t mine = 0;
#ifndef NO_CHOOSING
    choosing[me] = 1;
#endif
    for (uint32_t other = 0; other < HARTS; other++) {
        uint32_t seen = number[other];
        mine = seen > mine ? seen : mine;
    }
    mine++;
    number[me] = mine;
#ifndef NO_CHOOSING
    choosing[me] = 0;
#endif
    for (uint32_t other = 0; other < HARTS; other++) {
        if (other == me) {
            continue;
        }
#ifndef NO_CHOOSING
        while (choosing[other] != 0) {
        }
#endif
        uint32_t seen;
        do {
            seen = number[other];
        } while (seen != 0 && (seen < mine || (seen == mine && other < me)));
    }
}

static inline void release(uint32_t me)
{
    number[me] = 0;
}

#include "counter.h"
