/* Sorts numbers by quicksort, which calls itself. Each hart has an array of its own, and puts it out when it is sorted. It ends
   with how many calls of the sort there were. */
#include "hart.h"

enum { MOST_HARTS = 8, COUNT = 24 };

static uint8_t numbers[MOST_HARTS][COUNT];
static uint32_t calls[MOST_HARTS];

static void swap(uint8_t *a, uint8_t *b)
{
    uint8_t other = *a;
    *a = *b;
    *b = other;
}

/* Sorts the numbers from `first` to before `end`. */
static void sort(uint8_t *first, uint8_t *end, uint32_t *count)
{
    *count += 1;
    if (end - first < 2)
        return;
    uint8_t *middle = first;
    for (uint8_t *next = first + 1; next < end; next++) {
        if (*next < *first) {
            middle++;
            swap(middle, next);
        }
    }
    swap(first, middle);
    sort(first, middle, count);
    sort(middle + 1, end, count);
}

uint32_t run_hart(uint32_t hart, uint32_t harts)
{
    (void)harts;
    uint8_t *mine = numbers[hart];
    uint32_t seed = 1 + hart;
    for (uint32_t k = 0; k < COUNT; k++) {
        seed = seed * 1103515245 + 12345;
        mine[k] = (uint8_t)(seed >> 16);
    }
    sort(mine, mine + COUNT, &calls[hart]);
    for (uint32_t k = 0; k < COUNT; k++)
        put_byte(mine[k]);
    return calls[hart];
}
