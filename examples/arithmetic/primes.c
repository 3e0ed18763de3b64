/* Counts the primes below LIMIT. Each hart takes every `harts`-th number, and ends with how many primes it has found. */
#include "hart.h"

enum { LIMIT = 30 };

/* Whether n, 2 or more, is a prime: none of the numbers from 2 on whose square is at most n divides it. */
static inline uint32_t is_prime(uint32_t n)
{
    for (uint32_t divisor = 2; divisor * divisor <= n; divisor++)
        if (n % divisor == 0)
            return 0;
    return 1;
}

static uint32_t run_hart(uint32_t hart, uint32_t harts)
{
    uint32_t count = 0;
    for (uint32_t n = 2 + hart; n < LIMIT; n += harts)
        count += is_prime(n);
    return count;
}
