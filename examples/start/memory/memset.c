#include "string.h"
#include "words.h"

void *memset(void *target, int byte, size_t count)
{
    unsigned char *next = target;
    const unsigned char one = (unsigned char)byte;
    const word_of_memory four = one * UINT32_C(0x01010101);
    for (; count > 0 && !at_a_word(next); count--)
        *next++ = one;
    for (; count >= sizeof(word_of_memory); count -= sizeof(word_of_memory)) {
        *(word_of_memory *)next = four;
        next += sizeof(word_of_memory);
    }
    for (; count > 0; count--)
        *next++ = one;
    return target;
}
