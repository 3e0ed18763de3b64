/* The CLH lock: each waits for the node of the one before it, and takes that for its next round.
   From: T. S. Craig, Building FIFO and priority-queuing spin locks from atomic swap, University of Washington 93-02-02,
   1993; P. Magnusson, A. Landin and E. Hagersten, Queue locks on cache coherent multiprocessors, International Parallel
   Processing Symposium, 1994.
   Harts: 2, 3, 4
   Asked: --forall counter={HARTS*ROUNDS}: no addition is lost.
   Wrong: -DKEEP_NODE -DROUNDS=2 --never-stuck: keeps its own node, which the one behind it may still wait for. */
#include "suite.h"

/* Of each node whether its owner has the lock or waits for it: those of the harts, and one of nobody, the last at
   the start. */
static shared busy[HARTS + 1], tail = HARTS;

static shared counter;

/* Takes the lock by this node, and has the one before it. */
static inline uint32_t acquire(uint32_t mine)
{
    busy[mine] = 1;
    uint32_t before = exchange(&tail, mine);
    while (busy[before] != 0) {
    }
    return before;
}

uint32_t run_hart(uint32_t hart, uint32_t harts)
{
    (void)harts;
    uint32_t mine = hart;
    for (uint32_t round = 0; round < ROUNDS; round++) {
        uint32_t before = acquire(mine);
        counter = counter + 1;
        busy[mine] = 0;
#ifdef KEEP_NODE
        (void)before;
#else
        mine = before;
#endif
    }
    return 0;
}
