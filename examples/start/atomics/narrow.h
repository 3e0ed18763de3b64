/* Atomic operations on bytes and halves. The machine has them on words alone, and GNU's compiler calls these functions in their place;
   LLVM's makes the like in line. Each takes the word in which its object lies, and leaves the word's other bits as they are: it tries
   until nobody has stored there in between. All are of the strongest order, which is what every order is here. */
#include <stdbool.h>
#include <stdint.h>

typedef uint32_t __attribute__((may_alias)) word_around;

static inline word_around *around(volatile void *object) { return (word_around *)((uintptr_t)object & ~(uintptr_t)3); }

static inline uint32_t shift_of(volatile void *object) { return (uint32_t)((uintptr_t)object & 3) * 8; }

/* Puts a word in the place of another one, and says whether that was still there. */
static inline bool put(word_around *word, uint32_t *old, uint32_t new)
{
    return __atomic_compare_exchange_n(word, old, new, true, __ATOMIC_SEQ_CST, __ATOMIC_SEQ_CST);
}

/* The function of a name, which answers what was there and leaves what is said of `old` and `value`. */
#define FETCH(NAME, TYPE, NEW)                                                                                            \
    TYPE narrow_##NAME(volatile void *object, TYPE value, int order) __asm__("__atomic_" #NAME);                           \
    TYPE narrow_##NAME(volatile void *object, TYPE value, int order)                                                       \
    {                                                                                                                     \
        word_around *word = around(object);                                                                               \
        const uint32_t shift = shift_of(object), mask = (uint32_t)(TYPE)~0u << shift;                                      \
        uint32_t whole = *(volatile word_around *)word;                                                                   \
        TYPE old;                                                                                                         \
        (void)order;                                                                                                      \
        do                                                                                                                \
            old = (TYPE)(whole >> shift);                                                                                 \
        while (!put(word, &whole, (whole & ~mask) | (uint32_t)(TYPE)(NEW) << shift));                                      \
        return old;                                                                                                       \
    }

/* Leaves what is wanted where there is what is expected, and else says what there is. */
#define COMPARE_EXCHANGE(NAME, TYPE)                                                                                      \
    bool narrow_##NAME(volatile void *object, void *expected, TYPE wanted, bool weak, int order, int failed)               \
        __asm__("__atomic_" #NAME);                                                                                       \
    bool narrow_##NAME(volatile void *object, void *expected, TYPE wanted, bool weak, int order, int failed)               \
    {                                                                                                                     \
        word_around *word = around(object);                                                                               \
        const uint32_t shift = shift_of(object), mask = (uint32_t)(TYPE)~0u << shift;                                      \
        uint32_t whole = *(volatile word_around *)word;                                                                   \
        (void)weak, (void)order, (void)failed;                                                                            \
        do {                                                                                                              \
            const TYPE found = (TYPE)(whole >> shift);                                                                    \
            if (found != *(TYPE *)expected) {                                                                             \
                *(TYPE *)expected = found;                                                                                \
                return false;                                                                                             \
            }                                                                                                             \
        } while (!put(word, &whole, (whole & ~mask) | (uint32_t)wanted << shift));                                         \
        return true;                                                                                                      \
    }

#define ALL_OF(SIZE, TYPE)                                                                                                \
    FETCH(fetch_add_##SIZE, TYPE, old + value)                                                                            \
    FETCH(fetch_sub_##SIZE, TYPE, old - value)                                                                            \
    FETCH(fetch_and_##SIZE, TYPE, old & value)                                                                            \
    FETCH(fetch_or_##SIZE, TYPE, old | value)                                                                             \
    FETCH(fetch_xor_##SIZE, TYPE, old ^ value)                                                                            \
    FETCH(fetch_nand_##SIZE, TYPE, ~(old & value))                                                                        \
    FETCH(exchange_##SIZE, TYPE, value)                                                                                   \
    COMPARE_EXCHANGE(compare_exchange_##SIZE, TYPE)
