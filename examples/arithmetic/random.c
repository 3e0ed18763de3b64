/* Draws COUNT numbers of the generator xorshift32 (Marsaglia, "Xorshift RNGs", Journal of Statistical Software, 2003), folds
   them into a checksum (FNV-1a, a word at a time), and puts the checksum's four bytes out, the low one first. Hart 0 has
   Marsaglia's seed and every other hart a seed of its own; all end with 0. */
#include "hart.h"

enum { COUNT = 20 };

static uint32_t run_hart(uint32_t hart, uint32_t harts)
{
    (void)harts;
    uint32_t x = 2463534242u + 0x9e3779b9u * hart;
    uint32_t checksum = 2166136261u;
    for (uint32_t drawn = 0; drawn < COUNT; drawn++) {
        x ^= x << 13;
        x ^= x >> 17;
        x ^= x << 5;
        checksum = (checksum ^ x) * 16777619u;
    }
    for (uint32_t byte = 0; byte < 4; byte++) {
        put_byte(checksum);
        checksum >>= 8;
    }
    return 0;
}
