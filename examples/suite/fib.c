/* Fibonacci's numbers by two harts that add each other's number to their own: how great may they become?
   From: fib_bench of the Competition on Software Verification (SV-COMP), category concurrency, 2012; P. A. Abdulla and
   others, Stateless model checking for TSO and PSO, Tools and Algorithms for the Construction and Analysis of Systems,
   2015.
   Harts: 2
   Asked: --never 'i>={FIB(2*ROUNDS+2)+1} | j>={FIB(2*ROUNDS+2)+1}': no order comes beyond that number of Fibonacci's.
   Claim: --never 'i={FIB(2*ROUNDS+2)} | j={FIB(2*ROUNDS+2)}': that none comes so far is wrong: two do, by turns. */
#ifndef ROUNDS
#define ROUNDS 3
#endif
#include "suite.h"

static shared i = 1, j = 1;

uint32_t run_hart(uint32_t hart, uint32_t harts)
{
    (void)harts;
    for (uint32_t round = 0; round < ROUNDS; round++) {
        if (hart == 0) {
            i = i + j;
        } else {
            j = j + i;
        }
    }
    return 0;
}
