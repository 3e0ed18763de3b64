/* What the programs of the suite share. Memory is sequentially consistent on this core, so a word that harts share
   is volatile and no more: each access that the source has is one of the program, in the source's order. */
#include "hart.h"

/* How many harts run the program, and how many rounds each makes: -DHARTS=3 -DROUNDS=2. */
#ifndef HARTS
#define HARTS 2
#endif
#ifndef ROUNDS
#define ROUNDS 1
#endif

/* With -DENDS a hart ends where its program does, and doesn't return to start.s for that. */
#ifdef ENDS
__attribute__((always_inline)) static inline uint32_t program(uint32_t hart, uint32_t harts);

uint32_t run_hart(uint32_t hart, uint32_t harts)
{
    register uint32_t number __asm__("a0") = program(hart, harts);
    register uint32_t call __asm__("a7") = 93;
    __asm__ volatile("ecall" : : "r"(number), "r"(call));
    __builtin_unreachable();
}

#define run_hart program
#endif

/* A word that harts share. */
typedef volatile uint32_t shared;

/* Writes a number and has what was there, in one step (AMOSWAP). */
static inline uint32_t exchange(shared *word, uint32_t number)
{
    return __atomic_exchange_n(word, number, __ATOMIC_SEQ_CST);
}

/* Adds a number and has what was there, in one step (AMOADD). */
static inline uint32_t fetch_add(shared *word, uint32_t number)
{
    return __atomic_fetch_add(word, number, __ATOMIC_SEQ_CST);
}

/* Writes `new` where `old` stands, and says whether it did (LR and SC). */
static inline int compare_and_swap(shared *word, uint32_t old, uint32_t new)
{
    return __atomic_compare_exchange_n(word, &old, new, 0, __ATOMIC_SEQ_CST, __ATOMIC_SEQ_CST);
}
