#!/bin/sh
# schedules.sh FOLDER: writes the schedules there: each is a round of asks, over and over, a line for each round. There are as many
# rounds as the longest of the three programs needs; what is asked for behind the end of a program is idle.
set -eu
to=$1
mkdir -p "$to"

# schedule NAME ROUNDS ROUND
schedule() {
    yes "$3" | head -n "$2" >"$to/$1.script"
}

# each ASK TIMES HART..: the same ask for each of these harts, in this order
each() {
    ask=$1 times=$2
    shift 2
    for hart in "$@"; do printf '%s.%s*%s ' "$ask" "$hart" "$times"; done
}

schedule in_order 1400 'F0 D1.0 R1.0 U3 U4 U5 T2.0'
schedule full_latches 230 'F0*8 D1.0*8 R1.0*8 U3*6 U5*4 U4*2 U3*6 U5*4 U3*4 T2.0*16'
schedule late_units 540 'F0*3 D1.0*3 R1.0*3 I5 I4 U3*2 I3 D1.0 R1.0 T2.0*2 C4 C3 C5 U5 T2.0'
schedule four_in_turn 1900 "F0*4 $(each D1 1 0 1 2 3)$(each R1 1 0 1 2 3)U3*4 U4*4 U5*4 $(each T2 1 0 1 2 3)"
schedule four_full_latches 280 \
    "F0*32 $(each D1 8 0 1 2 3)$(each R1 8 3 2 1 0)U3*24 U5*16 U4*8 U3*24 U5*16 U3*8 $(each T2 16 3 1 0 2)"
schedule four_late_units 1050 \
    "F0*6 $(each D1 2 0 1 2 3)$(each R1 2 1 3 0 2)I5 I4 U3*5 I3 $(each T2 1 2 0)$(each D1 1 3 2 1 0)C4 C3 C5 U5*2 $(each T2 2 3 2 1 0)"
