/* Treiber's stack: each hart pushes its node, and pops one.
   From: R. K. Treiber, Systems programming: coping with parallelism, IBM Research Report RJ 5118, 1986.
   Harts: 2, 3, 4
   Asked: --forall '!h*!={N}' for N in 1..HARTS: of each node some hart says that it has popped it: so none is lost, and
      none is popped twice.
   Wrong: -DTWO_STEPS: a push looks at the top and writes it in two steps.
   Wrong: -DREUSE -DHARTS=2 --never 'h1=2 & top=2': hart 0 pops one of two nodes, while hart 1 pops both and pushes its
      first one again: as hart 0 finds that on top it puts on top what was below it before (ABA), which hart 1 has
      taken.
   Right: -DREUSE_RESERVED -DHARTS=2 --never 'h1=2 & top=2': so too, but the top is read by LR, and written by SC. */
#include "suite.h"

#ifdef REUSE_RESERVED
#define REUSE
#endif

/* The nodes are numbers from 1; 0 is none. */
#ifdef REUSE
static shared top = 1, next[3] = {0, 2, 0};
#else
static shared top, next[HARTS + 1];
#endif

static inline void push(uint32_t node)
{
    uint32_t seen;
#ifdef TWO_STEPS
    seen = top;
    next[node] = seen;
    top = node;
#else
    do {
        seen = top;
        next[node] = seen;
    } while (!compare_and_swap(&top, seen, node));
#endif
}

#ifdef REUSE_RESERVED
static inline uint32_t pop(void)
{
    uint32_t node, failed;
    do {
        __asm__ volatile("lr.w %0, (%1)" : "=r"(node) : "r"(&top) : "memory");
        if (node == 0) {
            break;
        }
        __asm__ volatile("sc.w %0, %2, (%1)" : "=&r"(failed) : "r"(&top), "r"(next[node]) : "memory");
    } while (failed != 0);
    return node;
}
#else
static inline uint32_t pop(void)
{
    uint32_t node;
    do {
        node = top;
    } while (node != 0 && !compare_and_swap(&top, node, next[node]));
    return node;
}
#endif

uint32_t run_hart(uint32_t hart, uint32_t harts)
{
    (void)harts;
#ifdef REUSE
    uint32_t node = pop();
    if (hart == 0) {
        return node;
    }
    uint32_t kept = pop();
    if (node != 0) {
        push(node);
    }
    return kept;
#else
    push(hart + 1);
    return pop();
#endif
}
