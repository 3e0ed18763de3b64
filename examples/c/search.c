/* Looks for a word in a text, by the algorithm of Knuth, Morris and Pratt: a table of the word on the stack says how far to go on
   after a difference. Hart h looks for word h, puts out the place of each find, and ends with how many there are. */
#include "hart.h"

enum { LONGEST = 16 };

static const char text[] = "she sells sea shells by the sea shore; the shells she sells are sea shells, she is sure";

static const char *const words[8] = {"she", "sea", "shells", "sells", "ore", "s s", "e s", "shells she"};

static uint32_t length(const char *word)
{
    uint32_t n = 0;
    while (word[n] != 0)
        n++;
    return n;
}

/* For each letter of the word: how many letters of its beginning end there. */
static void borders(const char *word, uint32_t size, uint32_t *table)
{
    table[0] = 0;
    uint32_t matched = 0;
    for (uint32_t k = 1; k < size; k++) {
        while (matched > 0 && word[k] != word[matched])
            matched = table[matched - 1];
        if (word[k] == word[matched])
            matched++;
        table[k] = matched;
    }
}

uint32_t run_hart(uint32_t hart, uint32_t harts)
{
    (void)harts;
    const char *word = words[hart];
    uint32_t size = length(word), table[LONGEST];
    borders(word, size, table);
    uint32_t matched = 0, found = 0;
    for (uint32_t k = 0; text[k] != 0; k++) {
        while (matched > 0 && text[k] != word[matched])
            matched = table[matched - 1];
        if (text[k] == word[matched])
            matched++;
        if (matched == size) {
            put_byte(k + 1 - size);
            found++;
            matched = table[matched - 1];
        }
    }
    return found;
}
