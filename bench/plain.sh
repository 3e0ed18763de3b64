#!/bin/sh
# Counts, for `smtsim plain`, the processor's instructions for a step, and the bytes of memory for a step: bench/plain.sh [STEPS ..], else
# 10^5 and 10^6 steps. The harts step in turn. Instructions are those that callgrind counts, memory is the peak that time says, both less those
# of a run of 100 steps; reading the order is part of a step. LOOPS and SMTSIM are as in run.sh. Debian's packages `valgrind` and `time` are needed.
set -eu
root=$(cd "$(dirname "$0")/.." && pwd)
. "$root/bench/rounds.sh"
[ $# -gt 0 ] || set -- 100000 1000000

# The program itself, not the script that starts it: callgrind counts what it is given.
if [ "$smtsim" = "$root/smtsim" ]; then smtsim=$root/crates/smtsim/out/smtsim; fi

# in_turn HARTS STEPS: an order in which the harts step in turn.
in_turn() {
    printf 'harts = %s\n' "$1" >"$work/config.toml"
    yes "$(seq -s ' ' 0 $(($1 - 1)))" | head -n $(($2 / $1)) >"$work/order"
}

# instructions LOOP HARTS STEPS: those of the whole run. Status 3 says that harts are still going, as they are in an endless loop.
instructions() {
    in_turn "$2" "$3"
    valgrind --tool=callgrind --callgrind-out-file=/dev/null "$smtsim" plain "$root/bench/$1.elf" "$work/order" \
        --config "$work/config.toml" 2>"$work/counted" >/dev/null || [ $? -eq 3 ]
    awk '/Collected/ { print $4 }' "$work/counted"
}

# memory LOOP HARTS STEPS: the peak of the whole run, in kilobytes.
memory() {
    in_turn "$2" "$3"
    /usr/bin/time -q -o "$work/counted" -f %M "$smtsim" plain "$root/bench/$1.elf" "$work/order" --config "$work/config.toml" >/dev/null ||
        [ $? -eq 3 ]
    cat "$work/counted"
}

printf '%-9s %5s %9s %17s %10s\n' loop harts steps instructions/step bytes/step
for loop in $loops; do
    for harts in 1 4; do
        few=$(instructions "$loop" "$harts" 100)
        little=$(memory "$loop" "$harts" 100)
        for steps in "$@"; do
            many=$(instructions "$loop" "$harts" "$steps")
            much=$(memory "$loop" "$harts" "$steps")
            awk -v loop="$loop" -v harts="$harts" -v steps="$steps" -v more="$((many - few))" -v room="$((much - little))" 'BEGIN {
                printf "%-9s %5d %9d %17.0f %10.1f\n", loop, harts, steps, more / (steps - 100), room * 1024 / (steps - 100) }'
        done
    done
done
