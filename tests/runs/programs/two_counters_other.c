/* The other counter. */
#include "hart.h"

static volatile uint32_t counter;

void count_other(uint32_t by)
{
    counter = counter + by;
}
