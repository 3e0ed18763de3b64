/* Michael and Scott's queue: each hart enqueues its node; with -DDEQUEUE it dequeues one behind that.
   From: M. M. Michael and M. L. Scott, Simple, fast, and practical non-blocking and blocking concurrent queue
   algorithms, Principles of Distributed Computing, 1996.
   Harts: 2, 3, 4
   Asked: --never 'next[{H}]=0 & next[{K}]=0' for H < K in 1..HARTS+1: no node is lost: but for the last each has one
      behind it.
   Wrong: -DPLAIN_LINK: writes the link behind the last node, which another one may have linked to.
   Right: -DDEQUEUE --forall 'taken[{H}]=1' for H in 2..HARTS+1: no node is lost or dequeued twice: as many are as there
      are.
   Wrong: -DDEQUEUE_PLAIN --forall 'taken[{H}]=1' for H in 2..HARTS+1: looks at the head and writes it in two steps. */
#include "suite.h"

#ifdef DEQUEUE_PLAIN
#define DEQUEUE
#endif

/* The nodes are numbers from 1, of which the first is the dummy at the start; 0 is none. */
static shared tail = 1, next[HARTS + 2];

static inline void enqueue(uint32_t node)
{
    for (;;) {
        uint32_t last = tail;
        uint32_t behind = next[last];
        if (last != tail) {
            continue;
        }
        if (behind != 0) {
            compare_and_swap(&tail, last, behind);
            continue;
        }
#ifdef PLAIN_LINK
        next[last] = node;
        compare_and_swap(&tail, last, node);
        return;
#else
        if (compare_and_swap(&next[last], 0, node)) {
            compare_and_swap(&tail, last, node);
            return;
        }
#endif
    }
}

#ifdef DEQUEUE
static shared head = 1, taken[HARTS + 2];

/* The node that is dequeued, or 0 where the queue is empty. */
static inline uint32_t dequeue(void)
{
    for (;;) {
        uint32_t first = head;
        uint32_t last = tail;
        uint32_t node = next[first];
        if (first != head) {
            continue;
        }
        if (first == last) {
            if (node == 0) {
                return 0;
            }
            compare_and_swap(&tail, last, node);
            continue;
        }
#ifdef DEQUEUE_PLAIN
        head = node;
        return node;
#else
        if (compare_and_swap(&head, first, node)) {
            return node;
        }
#endif
    }
}
#endif

uint32_t run_hart(uint32_t hart, uint32_t harts)
{
    (void)harts;
    enqueue(hart + 2);
#ifdef DEQUEUE
    taken[dequeue()] = 1;
#endif
    return 0;
}
