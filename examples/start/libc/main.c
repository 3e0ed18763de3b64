/* For a program that has `main` in place of `run_hart`: hart 0 calls it, and the other harts end with 0. */
#include "hart.h"
#include <stdlib.h>

int main(void);

uint32_t run_hart(uint32_t hart, uint32_t harts)
{
    (void)harts;
    if (hart == 0)
        exit(main());
    return 0;
}
