#!/bin/sh
# Counts, for `smtsim step`, the processor's instructions for an event, and the bytes of memory for an event: bench/count.sh [EVENTS ..],
# else 10^5 and 10^6 events. Instructions are those that callgrind counts, memory is the peak that time says, both less those of a run of 100
# events. LOOPS and SMTSIM are as in run.sh. Debian's packages `valgrind` and `time` are needed.
set -eu
root=$(cd "$(dirname "$0")/.." && pwd)
. "$root/bench/rounds.sh"
[ $# -gt 0 ] || set -- 100000 1000000

# The program itself, not the script that starts it: callgrind counts what it is given.
if [ "$smtsim" = "$root/smtsim" ]; then smtsim=$root/crates/smtsim/out/smtsim; fi

# instructions LOOP HARTS EVENTS: those of the whole run.
instructions() {
    prepare "$1" "$2" "$3"
    valgrind --tool=callgrind --callgrind-out-file=/dev/null "$smtsim" step "$image" "$work/script" --config "$work/config.toml" \
        2>"$work/counted" >/dev/null || [ $? -eq 3 ]
    awk '/Collected/ { print $4 }' "$work/counted"
}

# memory LOOP HARTS EVENTS: the peak of the whole run, in kilobytes.
memory() {
    prepare "$1" "$2" "$3"
    /usr/bin/time -q -o "$work/counted" -f %M "$smtsim" step "$image" "$work/script" --config "$work/config.toml" >/dev/null || [ $? -eq 3 ]
    cat "$work/counted"
}

printf '%-9s %5s %9s %18s %11s\n' loop harts events instructions/event bytes/event
for loop in $loops; do
    for harts in 1 4; do
        try_round "$loop" "$harts"
        few=$(instructions "$loop" "$harts" 100)
        little=$(memory "$loop" "$harts" 100)
        for events in "$@"; do
            many=$(instructions "$loop" "$harts" "$events")
            much=$(memory "$loop" "$harts" "$events")
            awk -v loop="$loop" -v harts="$harts" -v events="$events" -v more="$((many - few))" -v room="$((much - little))" 'BEGIN {
                printf "%-9s %5d %9d %18.0f %11.1f\n", loop, harts, events, more / (events - 100), room * 1024 / (events - 100) }'
        done
    done
done
