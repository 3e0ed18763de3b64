/* indexer: each hart puts ROUNDS messages into one table by their hash, and goes on to the next place where there is
   something.
   From: C. Flanagan and P. Godefroid, Dynamic partial-order reduction for model checking software, Principles of
   Programming Languages, 2005: with 128 places, where up to eleven harts never meet.
   Harts: 2, 3, 4
   Asked: --forall 'table[{7*(11*K+H)%128}]={11*K+H}' for H in 0..HARTS-1, K in 1..ROUNDS: each message is at its place.
   Right: -DMEET -DROUNDS=1 --never 'table[{H}]=0' for H in 0..HARTS-1: all want the same place, and have as many as
      they are.
   Wrong: -DMEET_TWO_STEPS -DROUNDS=1 --never 'table[{H}]=0' for H in 0..HARTS-1: looks at a place and writes it in
      two steps. */
#ifndef ROUNDS
#define ROUNDS 4
#endif
#include "suite.h"

#ifdef MEET_TWO_STEPS
#define MEET
#endif

/* How many places the table has: with 7 all messages want the first one. */
#ifdef MEET
#define SIZE 7
#else
#define SIZE 128
#endif

static shared table[SIZE];

static inline int put(uint32_t place, uint32_t message)
{
#ifdef MEET_TWO_STEPS
    if (table[place] != 0) {
        return 0;
    }
    table[place] = message;
    return 1;
#else
    return compare_and_swap(&table[place], 0, message);
#endif
}

uint32_t run_hart(uint32_t hart, uint32_t harts)
{
    (void)harts;
    for (uint32_t round = 1; round <= ROUNDS; round++) {
        uint32_t message = 11 * round + hart;
        uint32_t place = 7 * message % SIZE;
        while (!put(place, message)) {
            place = (place + 1) % SIZE;
        }
    }
    return 0;
}
