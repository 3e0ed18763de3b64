/* Adds up the greatest common divisors of NUMBER with each of 1 to NUMBER. Each hart takes every `harts`-th of them, and ends
   with its sum. */
#include "hart.h"

enum { NUMBER = 18 };

/* The greatest common divisor of a and b, by Euclid's algorithm. */
static inline uint32_t gcd(uint32_t a, uint32_t b)
{
    while (b != 0) {
        uint32_t rest = a % b;
        a = b;
        b = rest;
    }
    return a;
}

static uint32_t run_hart(uint32_t hart, uint32_t harts)
{
    uint32_t sum = 0;
    for (uint32_t k = 1 + hart; k <= NUMBER; k += harts)
        sum += gcd(NUMBER, k);
    return sum;
}
