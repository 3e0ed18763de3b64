/* Chase and Lev's deque: hart 0 pushes ROUNDS items and takes as often from the same end, the others steal once from
   the other one.
   From: D. Chase and Y. Lev, Dynamic circular work-stealing deque, Symposium on Parallelism in Algorithms and
   Architectures, 2005; with an array that doesn't grow.
   Harts: 2, 3, 4
   Asked: --forall 'taken[{H}]=1' for H in 1..ROUNDS: each item is taken once, by one hart.
   Wrong: -DLAST_PLAIN -DROUNDS=1: takes the last item without a compare and swap, while another one steals it.
   Wrong: -DTOP_FIRST -DHARTS=3: looks at the top before it says which item it takes: two are stolen in between, the
      last one of them its. */
#ifndef ROUNDS
#define ROUNDS 2
#endif
#include "suite.h"

static shared top, bottom, items[ROUNDS];

/* How often each item was taken. */
static shared taken[ROUNDS + 1];

static inline void push(uint32_t item)
{
    uint32_t at = bottom;
    items[at] = item;
    bottom = at + 1;
}

/* The item that the owner takes, or 0 where there is none. */
static inline uint32_t take(void)
{
#ifdef TOP_FIRST
    uint32_t first = top;
    uint32_t at = bottom - 1;
    bottom = at;
#else
    uint32_t at = bottom - 1;
    bottom = at;
    uint32_t first = top;
#endif
    if ((int32_t)(at - first) < 0) {
        bottom = first;
        return 0;
    }
    uint32_t item = items[at];
    if (at != first) {
        return item;
    }
#ifdef LAST_PLAIN
    top = first + 1;
#else
    if (!compare_and_swap(&top, first, first + 1)) {
        item = 0;
    }
#endif
    bottom = first + 1;
    return item;
}

/* The item that another hart steals, or 0 where there is none, or somebody was faster. */
static inline uint32_t steal(void)
{
    uint32_t first = top;
    if ((int32_t)(bottom - first) <= 0) {
        return 0;
    }
    uint32_t item = items[first];
    return compare_and_swap(&top, first, first + 1) ? item : 0;
}

uint32_t run_hart(uint32_t hart, uint32_t harts)
{
    (void)harts;
    if (hart == 0) {
        for (uint32_t item = 1; item <= ROUNDS; item++) {
            push(item);
        }
        for (uint32_t round = 0; round < ROUNDS; round++) {
            fetch_add(&taken[take()], 1);
        }
    } else {
        fetch_add(&taken[steal()], 1);
    }
    return 0;
}
