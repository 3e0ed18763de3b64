/* lastzero: hart 0 looks for the last zero of an array, while hart k writes element k: one more than the element before
   it.
   From: P. A. Abdulla, S. Aronis, B. Jonsson and K. Sagonas, Optimal dynamic partial order reduction, Principles of
   Programming Languages, 2014.
   Harts: 2, 3, 4
   Asked: --forall 'h0<{HARTS} & array[{H}]>=1 & array[{H}]<{H+1}' for H in 1..HARTS-1: hart 0 finds a zero of the
      array; each element is written once.
   Claim: --forall 'h0=0': that it finds the one that is the last in the end is wrong: those behind it may not be
      written yet. */
#include "suite.h"

static shared array[HARTS];

uint32_t run_hart(uint32_t hart, uint32_t harts)
{
    (void)harts;
    if (hart != 0) {
        array[hart] = array[hart - 1] + 1;
        return 0;
    }
    uint32_t at = HARTS - 1;
    while (array[at] != 0) {
        at--;
    }
    return at;
}
