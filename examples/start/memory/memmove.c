#include "string.h"
#include "words.h"

/* Copies from the last byte to the first. Both ends are those behind the last byte. */
static void copy_downwards(unsigned char *target_end, const unsigned char *source_end, size_t count)
{
    if (in_step(target_end, source_end)) {
        for (; count > 0 && !at_a_word(target_end); count--)
            *--target_end = *--source_end;
        for (; count >= sizeof(word_of_memory); count -= sizeof(word_of_memory)) {
            target_end -= sizeof(word_of_memory);
            source_end -= sizeof(word_of_memory);
            *(word_of_memory *)target_end = *(const word_of_memory *)source_end;
        }
    }
    for (; count > 0; count--)
        *--target_end = *--source_end;
}

void *memmove(void *target, const void *source, size_t count)
{
    /* Upwards, a byte of the source is overwritten before it is read only where the target begins inside of the source. */
    if ((uintptr_t)target - (uintptr_t)source >= count)
        copy_upwards(target, source, count);
    else
        copy_downwards((unsigned char *)target + count, (const unsigned char *)source + count, count);
    return target;
}
