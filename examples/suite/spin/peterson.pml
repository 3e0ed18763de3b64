/* peterson.c, a step for each access to memory: Peterson's lock, for two harts. What isn't read again is forgotten. */
#define HARTS 2

byte flag[2], turn;

#include "counter.pml"

active [HARTS] proctype hart()
{
    byte mine;
    flag[_pid] = 1;
    turn = 1 - _pid;
again:
    if
    :: flag[1 - _pid] == 0 -> goto inside
    :: else
    fi;
    if
    :: turn != 1 - _pid -> goto inside
    :: else -> goto again
    fi;
inside:
    mine = counter;
    d_step { counter = mine + 1; mine = 0 };
    d_step { flag[_pid] = 0; ends() };
end_of_hart:
    false
}
