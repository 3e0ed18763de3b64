#include "string.h"
#include "words.h"

int memcmp(const void *one, const void *other, size_t count)
{
    const unsigned char *left = one;
    const unsigned char *right = other;
    /* Words that are equal are passed over; which byte of two others differs, the bytes say. */
    if (in_step(left, right)) {
        for (; count > 0 && !at_a_word(left) && *left == *right; count--, left++, right++)
            ;
        if (at_a_word(left)) {
            while (count >= sizeof(word_of_memory) && *(const word_of_memory *)left == *(const word_of_memory *)right) {
                left += sizeof(word_of_memory);
                right += sizeof(word_of_memory);
                count -= sizeof(word_of_memory);
            }
        }
    }
    for (; count > 0; count--, left++, right++) {
        if (*left != *right)
            return *left < *right ? -1 : 1;
    }
    return 0;
}
