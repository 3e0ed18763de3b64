/* Puts out the primes below a limit, by the sieve of Eratosthenes on a table that lies on the hart's stack. Hart h has the limit
   number h of a table in memory, and ends with how many primes there are. */
#include "hart.h"

enum { HIGHEST = 128 };

static const uint8_t limits[8] = {50, 20, 100, 128, 3, 2, 75, 32};

uint32_t run_hart(uint32_t hart, uint32_t harts)
{
    (void)harts;
    uint8_t is_composite[HIGHEST];
    uint32_t limit = limits[hart];
    for (uint32_t n = 0; n < limit; n++)
        is_composite[n] = 0;
    uint32_t count = 0;
    for (uint32_t n = 2; n < limit; n++) {
        if (is_composite[n])
            continue;
        put_byte(n);
        count++;
        for (uint32_t multiple = n * n; multiple < limit; multiple += n)
            is_composite[multiple] = 1;
    }
    return count;
}
