/* swap.c, a step for each access to memory: the lock by AMOSWAP. What isn't read again is forgotten. */
#ifndef HARTS
#define HARTS 2
#endif

byte lock;

#include "counter.pml"

active [HARTS] proctype hart()
{
    byte mine;
again:
    if
    :: d_step { lock == 0 -> lock = 1 }
    :: else -> goto again
    fi;
    mine = counter;
    d_step { counter = mine + 1; mine = 0 };
    d_step { lock = 0; ends() };
end_of_hart:
    false
}
