/* What the four functions of this folder share: bytes and words. The machine has no access that isn't aligned, so words are taken
   only where their addresses are multiples of four. */
#include <stddef.h>
#include <stdint.h>

/* Four bytes at once, whatever objects they belong to. */
typedef uint32_t __attribute__((may_alias)) word_of_memory;

static inline int at_a_word(const unsigned char *address)
{
    return (uintptr_t)address % sizeof(word_of_memory) == 0;
}

/* Whether two addresses reach the beginning of a word at once, on a way of equal steps. */
static inline int in_step(const unsigned char *one, const unsigned char *other)
{
    return ((uintptr_t)one ^ (uintptr_t)other) % sizeof(word_of_memory) == 0;
}

/* Copies from the first byte to the last. The source may lie behind the target and overlap with it: where words are copied, it lies a
   whole word behind at the least. */
static inline void copy_upwards(unsigned char *target, const unsigned char *source, size_t count)
{
    if (in_step(target, source)) {
        for (; count > 0 && !at_a_word(target); count--)
            *target++ = *source++;
        for (; count >= sizeof(word_of_memory); count -= sizeof(word_of_memory)) {
            *(word_of_memory *)target = *(const word_of_memory *)source;
            target += sizeof(word_of_memory);
            source += sizeof(word_of_memory);
        }
    }
    for (; count > 0; count--)
        *target++ = *source++;
}
