#!/bin/sh
# schedules.sh FOLDER: writes the schedules there: each is a round of asks, over and over, a line for each round, as often as the
# longest of the programs needs. What is asked for behind the end of a program is idle.
set -eu
to=$1
mkdir -p "$to"

# schedule NAME ROUNDS ROUND
schedule() {
    yes "$3" | head -n "$2" >"$to/$1.script"
}

# each ASK TIMES HART..: the same ask for each of these harts, in this order
each() {
    ask=$1 times=$2
    shift 2
    for hart in "$@"; do printf '%s.%s*%s ' "$ask" "$hart" "$times"; done
}

# one_by_one NAME HARTS: each hart alone for sixteen rounds, and this twelve times. Who waits for another waits long.
one_by_one() {
    hart=0
    while [ "$hart" -lt "$2" ]; do
        yes "F0*8 D1.$hart*8 R1.$hart*8 U3*8 U4 U5*4 U3*4 T2.$hart*8" | head -n 16
        hart=$((hart + 1))
    done >"$to/$1.part"
    for _ in 1 2 3 4 5 6 7 8 9 10 11 12; do cat "$to/$1.part"; done >"$to/$1.script"
    rm "$to/$1.part"
}

schedule two_in_turn 160 "F0*2 $(each D1 1 0 1)$(each R1 1 0 1)U3*2 U4*2 U5*2 $(each T2 1 0 1)"
schedule two_full_latches 75 "F0*16 $(each D1 8 0 1)$(each R1 8 1 0)U3*12 U4*2 U5*8 U3*8 U5*4 $(each T2 8 1 0)"
schedule four_in_turn 300 "F0*4 $(each D1 1 0 1 2 3)$(each R1 1 0 1 2 3)U3*4 U4*4 U5*4 $(each T2 1 0 1 2 3)"
schedule four_full_latches 140 \
    "F0*32 $(each D1 8 0 1 2 3)$(each R1 8 3 2 1 0)U3*24 U4*4 U5*16 U3*16 U5*8 $(each T2 8 3 1 0 2)"
schedule four_one_ahead 220 \
    "F0*6 $(each D1 2 0 1 2 3)$(each R1 2 1 3 0 2)I5 U3*5 I3 $(each T2 1 2 0)$(each D1 2 3 2 1 0)C3 U4 C5 U5*2 $(each T2 3 3 2 1 0)"
one_by_one two_one_by_one 2
one_by_one three_one_by_one 3
one_by_one five_one_by_one 5
one_by_one eight_one_by_one 8
