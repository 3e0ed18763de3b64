/* Takes blocks from the heap until there is none, gives them back, and takes them again. Ends with 0; else with the number of what was
   wrong: 1 a block over data or stacks, 2 no block at all, 3 too much was given, 4 not the same number of blocks again. */
#include "hart.h"
#include <stdlib.h>

extern char data_end[];
/* Where the stacks of 16 harts begin, 2048 bytes each at the end of 65536. */
static const uintptr_t stacks = 0x80008000;

enum { SIZE = 500, MOST = 200 };

static char *blocks[MOST];
/* What is stored here no compiler leaves out. */
static char *volatile too_much;
static int outside;

static uint32_t take_all(void)
{
    uint32_t count = 0;
    while (count < MOST && (blocks[count] = malloc(SIZE)) != NULL) {
        if (blocks[count] < data_end || (uintptr_t)blocks[count] + SIZE > stacks)
            outside = 1;
        count++;
    }
    return count;
}

uint32_t run_hart(uint32_t hart, uint32_t harts)
{
    (void)harts;
    if (hart != 0)
        return 0;
    too_much = malloc(100000);
    if (too_much != NULL)
        return 3;
    uint32_t count = take_all();
    for (uint32_t k = 0; k < count; k++)
        free(blocks[k]);
    if (outside)
        return 1;
    if (count == 0)
        return 2;
    if (count == MOST)
        return 3;
    return take_all() == count ? 0 : 4;
}
