#include "hart.h"

static uint32_t top = 1;
static volatile uint32_t next[3] = {0, 2, 0};

static int change_top(uint32_t *seen, uint32_t node)
{
    return __atomic_compare_exchange_n(&top, seen, node, 0, __ATOMIC_ACQ_REL, __ATOMIC_ACQUIRE);
}

static uint32_t pop(void)
{
    uint32_t node = __atomic_load_n(&top, __ATOMIC_ACQUIRE);
    while (node != 0 && !change_top(&node, next[node])) {
    }
    return node;
}

static void push(uint32_t node)
{
    uint32_t seen = __atomic_load_n(&top, __ATOMIC_ACQUIRE);
    do {
        next[node] = seen;
    } while (!change_top(&seen, node));
}

uint32_t run_hart(uint32_t hart, uint32_t harts)
{
    (void)harts;
    uint32_t node = pop();
    if (hart == 0) {
        return node;
    }
    uint32_t kept = pop();
    if (node != 0) {
        push(node);
    }
    return kept;
}
