/* ticket.c, a step for each access to memory: the ticket lock. What isn't read again is forgotten. */
#ifndef HARTS
#define HARTS 2
#endif

byte next_ticket, served;

#include "counter.pml"

active [HARTS] proctype hart()
{
    byte mine;
    d_step { mine = next_ticket; next_ticket++ };
again:
    if
    :: d_step { served == mine -> mine = 0 }
    :: else -> goto again
    fi;
    mine = counter;
    d_step { counter = mine + 1; mine = 0 };
    mine = served;
    d_step { served = mine + 1; mine = 0; ends() };
end_of_hart:
    false
}
