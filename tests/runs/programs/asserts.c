/* assert.h: hart 0 asserts what holds, and ends with 0; hart 1 asserts what doesn't, hart 2 comes to where none should, and both
   stop with cause 3. */
#include "hart.h"
#include <assert.h>

static_assert(sizeof(uint32_t) == 4, "a word has four bytes");

uint32_t run_hart(uint32_t hart, uint32_t harts)
{
    assert(harts == 3);
    switch (hart) {
    case 0:
        return 0;
    case 1:
        assert(hart == 0);
        return 1;
    default:
        put_byte('u');
        unreachable();
    }
}
