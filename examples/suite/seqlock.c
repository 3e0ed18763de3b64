/* A sequence lock: hart 0 counts before and behind what it writes, and a reader reads again where the count was odd or
   has changed.
   From: L. Lamport, Concurrent reading and writing, Communications of the ACM 20(11), 1977; as in Linux since 2.6, and
   in H.-J. Boehm, Can seqlocks get along with programming language memory models?, Memory Systems Performance and
   Correctness, 2012.
   Harts: 2, 3, 4
   Asked: --forall 'h*=0': each reader has two equal words.
   Wrong: -DNO_SECOND_LOOK: doesn't look again at the count behind what it has read.
   Wrong: -DCOUNT_BEHIND: the writer counts behind what it writes alone, by two. */
#include "suite.h"

static shared count, one, other;

static inline void write_once(void)
{
#ifdef COUNT_BEHIND
    one = one + 1;
    other = other + 1;
    count = count + 2;
#else
    count = count + 1;
    one = one + 1;
    other = other + 1;
    count = count + 1;
#endif
}

static inline int reads_alike(void)
{
    uint32_t before, first, second;
    do {
        do {
            before = count;
        } while (before % 2 != 0);
        first = one;
        second = other;
#ifdef NO_SECOND_LOOK
    } while (0);
#else
    } while (count != before);
#endif
    return first == second;
}

uint32_t run_hart(uint32_t hart, uint32_t harts)
{
    (void)harts;
    uint32_t differ = 0;
    for (uint32_t round = 0; round < ROUNDS; round++) {
        if (hart == 0) {
            write_once();
        } else {
            differ |= !reads_alike();
        }
    }
    return differ;
}
