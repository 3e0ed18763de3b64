/* The lock by LR and SC: who has reserved the word, found 0 and can still store 1, has it.
   From: E. H. Jensen, G. W. Hagensen and J. M. Broughton, A new approach to exclusive data access in shared memory
   multiprocessors, Lawrence Livermore National Laboratory, 1987; The RISC-V Instruction Set Manual, Volume I, chapter
   "A".
   Harts: 2, 3, 4
   Asked: --forall counter={HARTS*ROUNDS}: no addition is lost.
   Wrong: -DNO_LOOK: doesn't look whether its SC has stored. */
#include "suite.h"

static shared lock;

static inline void acquire(uint32_t me)
{
    (void)me;
    uint32_t found, failed;
    do {
        do {
            __asm__ volatile("lr.w %0, (%1)" : "=r"(found) : "r"(&lock) : "memory");
        } while (found != 0);
        __asm__ volatile("sc.w %0, %2, (%1)" : "=&r"(failed) : "r"(&lock), "r"(1) : "memory");
#ifdef NO_LOOK
    } while (0);
#else
    } while (failed != 0);
#endif
}

static inline void release(uint32_t me)
{
    (void)me;
    lock = 0;
}

#include "counter.h"
