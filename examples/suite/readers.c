/* A lock for readers and writers: many may read, or one may write. Harts of even numbers write, the others read.
   From: P. J. Courtois, F. Heymans and D. L. Parnas, Concurrent control with "readers" and "writers", Communications of
   the ACM 14(10), 1971, the first problem; with one word, as in M. L. Scott, Shared-Memory Synchronization, 2013, 6.1.
   Harts: 2, 3, 4
   Asked: --forall 'h*=0 & one={(HARTS+1)//2*ROUNDS} & other={(HARTS+1)//2*ROUNDS}': all read two equal words; no
      addition is lost.
   Wrong: -DTWO_STEPS: a reader looks for a writer, and then counts itself, in two steps. */
#include "suite.h"

#define WRITER 0x80000000u

/* How many readers are inside, or WRITER. */
static shared inside;
static shared one, other;

static inline void begin_to_read(void)
{
    uint32_t seen;
    do {
        do {
            seen = inside;
        } while (seen == WRITER);
#ifdef TWO_STEPS
        inside = seen + 1;
    } while (0);
#else
    } while (!compare_and_swap(&inside, seen, seen + 1));
#endif
}

static inline void write_once(void)
{
    while (!compare_and_swap(&inside, 0, WRITER)) {
    }
    one = one + 1;
    other = other + 1;
    inside = 0;
}

uint32_t run_hart(uint32_t hart, uint32_t harts)
{
    (void)harts;
    uint32_t differ = 0;
    for (uint32_t round = 0; round < ROUNDS; round++) {
        if (hart % 2 == 0) {
            write_once();
        } else {
            begin_to_read();
            differ |= one != other;
            fetch_add(&inside, -1);
        }
    }
    return differ;
}
