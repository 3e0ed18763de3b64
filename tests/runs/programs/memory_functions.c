/* Tries memcpy, memmove, memset and memcmp on all sizes from 0 to 40 at all places in a word, with all overlaps of memmove both ways.
   Ends with 0; else with the number of the check that failed first. What has to be there is found byte by byte. */
#include "hart.h"
#include <string.h>

enum { MOST = 40, MARGIN = 8, ROOM = 3 * MOST + 2 * MARGIN };

/* Bytes; and the same as words, which are quicker to fill and to look through. */
union bytes {
    unsigned char at[ROOM];
    uint32_t words[ROOM / 4];
};

/* Before the first byte and behind the last there is room, to see that nothing else is written. */
static union bytes in_memory, as_it_should, from_where;
static unsigned char *const memory = in_memory.at, *const wanted = as_it_should.at, *const source = from_where.at;

/* The bytes of 4, 5, 6, 7 and so on, each times 3. */
static unsigned char first_value(uint32_t at) { return (unsigned char)(3 * (at + 4)); }

static void begin(void)
{
    uint32_t four = 0x15120f0c;
    for (uint32_t k = 0; k < ROOM / 4; k++) {
        in_memory.words[k] = as_it_should.words[k] = four;
        /* Each byte becomes greater by 12, without a carry into the next. */
        four = ((four & 0x7f7f7f7f) + 0x0c0c0c0c) ^ (four & 0x80808080);
    }
}

static int as_wanted(void)
{
    for (uint32_t k = 0; k < ROOM / 4; k++)
        if (in_memory.words[k] != as_it_should.words[k])
            return 0;
    return 1;
}

static int copies(uint32_t to, uint32_t from, uint32_t size)
{
    begin();
    for (uint32_t k = 0; k < size; k++)
        wanted[MARGIN + to + k] = source[from + k];
    return memcpy(memory + MARGIN + to, source + from, size) == memory + MARGIN + to && as_wanted();
}

static int fills(uint32_t to, uint32_t size)
{
    begin();
    for (uint32_t k = 0; k < size; k++)
        wanted[MARGIN + to + k] = 0xa5;
    /* Only the low byte of the number counts. */
    return memset(memory + MARGIN + to, 0x1a5, size) == memory + MARGIN + to && as_wanted();
}

static int moves(uint32_t to, uint32_t from, uint32_t size)
{
    begin();
    for (uint32_t k = 0; k < size; k++)
        wanted[to + k] = first_value(from + k);
    return memmove(memory + to, memory + from, size) == memory + to && as_wanted();
}

/* Equal bytes with others before and behind them; then one byte that differs, wherever it stands, less and greater. The high bit is set
   in the greater, which has to count as 128. */
static int compares(uint32_t one, uint32_t other, uint32_t size)
{
    unsigned char *left = memory + MARGIN + one, *right = source + MARGIN + other;
    for (uint32_t at = 0; at < ROOM; at++) {
        memory[at] = 1;
        source[at] = 2;
    }
    for (uint32_t k = 0; k < size; k++)
        left[k] = right[k] = (unsigned char)k;
    if (memcmp(left, right, size) != 0)
        return 0;
    for (uint32_t k = 0; k < size; k++) {
        left[k] ^= 0x80;
        /* A later byte that differs the other way must not count. */
        if (k + 1 < size)
            right[k + 1] ^= 0x80;
        if (memcmp(left, right, size) <= 0 || memcmp(right, left, size) >= 0)
            return 0;
        left[k] ^= 0x80;
        if (k + 1 < size)
            right[k + 1] ^= 0x80;
    }
    return 1;
}

uint32_t run_hart(uint32_t hart, uint32_t harts)
{
    (void)hart;
    (void)harts;
    for (uint32_t at = 0; at < ROOM; at++)
        source[at] = (unsigned char)(5 * at + 1);
    for (uint32_t size = 0; size <= MOST; size++) {
        for (uint32_t to = 0; to < 4; to++) {
            if (!fills(to, size))
                return 1;
            for (uint32_t from = 0; from < 4; from++)
                if (!copies(to, from, size))
                    return 2;
        }
    }
    for (uint32_t size = 0; size <= MOST; size++)
        for (uint32_t from = MOST; from < MOST + 4; from++)
            for (uint32_t to = from - size; to <= from + size; to++)
                if (!moves(to, from, size))
                    return 3;
    for (uint32_t size = 0; size <= MOST; size++)
        for (uint32_t one = 0; one < 4; one++)
            for (uint32_t other = 0; other < 4; other++)
                if (!compares(one, other, size))
                    return 4;
    return 0;
}
