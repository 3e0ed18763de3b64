/* The lock by swap, or test and set: who finds 0 and leaves 1 in one step has it.
   From: IBM System/360's TEST AND SET; T. E. Anderson, The performance of spin lock alternatives for shared-memory
   multiprocessors, IEEE Transactions on Parallel and Distributed Systems 1(1), 1990.
   Harts: 2, 3, 4
   Asked: --forall counter={HARTS*ROUNDS}: no addition is lost.
   Wrong: -DLOOK_THEN_SET: looks, and then sets, in two steps. */
#include "suite.h"

static shared lock;

static inline void acquire(uint32_t me)
{
    (void)me;
#ifdef LOOK_THEN_SET
    while (lock != 0) {
    }
    lock = 1;
#else
    while (exchange(&lock, 1) != 0) {
    }
#endif
}

static inline void release(uint32_t me)
{
    (void)me;
    lock = 0;
}

#include "counter.h"
