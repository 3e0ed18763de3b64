/* Two counters of one name, each known to its own file alone (the other one is in two_counters_other.c), an array and a struct. */
#include "hart.h"

static volatile uint32_t counter;
volatile uint32_t next[4];
volatile uint16_t half;
volatile struct {
    uint8_t kind;
    uint32_t count;
} node;

void count_other(uint32_t by);

uint32_t run_hart(uint32_t hart, uint32_t harts)
{
    (void)harts;
    counter = counter + 1;
    next[3] = next[3] + 7;
    half = half + 0x101;
    node.kind = node.kind + 5;
    node.count = node.count + 9;
    count_other(hart + 3);
    return 0;
}
