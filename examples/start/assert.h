/* `assert` and `unreachable` for programs without a C library: where a condition doesn't hold, or such a place is reached, the hart
   stops with cause 3, by an EBREAK of that very line. `--why` says its pc, and the lines that `image.sh -g` writes say the place. With
   NDEBUG, `assert` asks nothing. With --libc the C library's own <assert.h> is taken, whose `assert` ends the hart with 134. */
#undef assert
#undef unreachable

/* The number of the line, in a comment of the assembler, keeps two places apart that would else become one. */
#define unreachable()                                                                                                     \
    __extension__({                                                                                                       \
        __asm__ volatile("ebreak # line %0" : : "i"(__LINE__));                                                           \
        __builtin_unreachable();                                                                                          \
    })

#ifdef NDEBUG
#define assert(condition) ((void)0)
#else
#define assert(condition) ((condition) ? (void)0 : unreachable())
#endif

#ifndef static_assert
#define static_assert _Static_assert
#endif
