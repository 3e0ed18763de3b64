/* treiber.c, a step for each access to memory: Treiber's stack, of which each hart pushes its node and pops one. A
   compare and swap is LR and SC, two steps: who has reserved the top loses that as another one writes it. What isn't
   read again is forgotten. */
#ifndef HARTS
#define HARTS 2
#endif

byte top, below[HARTS + 1], popped[HARTS], ended;
bool reserved[HARTS];

hidden byte k, other;

inline write_top(node)
{
    top = node;
    for (k : 0 .. HARTS - 1) { reserved[k] = false }
}

/* A hart ends in the step that pops its node. Once all have ended, they have popped as many nodes as there are: the last
   of them looks, in that step. */
inline ends(node)
{
    popped[_pid] = node;
    ended++;
    for (k : 0 .. HARTS - 1) {
        for (other : 0 .. HARTS - 1) {
            assert(ended < HARTS || k == other || popped[k] != popped[other])
        }
        assert(ended < HARTS || popped[k] != 0)
    }
}

active [HARTS] proctype hart()
{
    byte seen, under;

look_to_push:
    seen = top;
    below[_pid + 1] = seen;
reserve_to_push:
    if
    :: d_step { top == seen -> reserved[_pid] = true }
    :: d_step { top != seen -> seen = 0 } -> goto look_to_push
    fi;
    if
    :: d_step { reserved[_pid] -> write_top(_pid + 1); seen = 0 }
    :: !reserved[_pid] -> goto reserve_to_push
    fi;

look_to_pop:
    seen = top;
    under = below[seen];
reserve_to_pop:
    if
    :: d_step { top == seen -> reserved[_pid] = true }
    :: d_step { top != seen -> seen = 0; under = 0 } -> goto look_to_pop
    fi;
    if
    :: d_step { reserved[_pid] -> write_top(under); under = 0; ends(seen); seen = 0 }
    :: !reserved[_pid] -> goto reserve_to_pop
    fi;
end_of_hart:
    false
}
