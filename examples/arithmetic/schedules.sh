#!/bin/sh
# Writes the schedules: each is a round of asks, over and over, a line for each round. There are as many rounds as the longest
# of the three programs needs, whatever is predicted; what is asked for behind the end of a program is idle.
set -eu
cd "$(dirname "$0")"
mkdir -p schedules

# schedule NAME ROUNDS ROUND
schedule() {
    yes "$3" | head -n "$2" >"schedules/$1.script"
}

schedule in_order 305 'F0 D1.0 R1.0 U3 U4 T2.0'
schedule full_latches 82 'F0*8 D1.0*8 R1.0*8 U3*6 U4*3 U3*6 T2.0*12'
schedule late_units 155 'F0*3 D1.0*3 R1.0*3 I4 U3*2 I3 D1.0 R1.0 T2.0*2 C4 C3 T2.0'
schedule two_in_turn 240 'F0*2 D1.0 D1.1 R1.0 R1.1 U3*2 U4*2 T2.0 T2.1'
schedule two_full_latches 54 'F0*16 D1.0*8 D1.1*8 R1.0*8 R1.1*8 U3*8 U4*4 U3*8 T2.1*12 T2.0*12'
schedule two_late_units 170 'F0*3 D1.0 D1.1*2 R1.1*2 R1.0 I4 I3 T2.1*2 D1.0 R1.0 C3 U3*2 C4 T2.0*2'
