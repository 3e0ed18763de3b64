#!/bin/sh
# Measures how many events a second `smtsim step` and `smtsim run` make: bench/run.sh [EVENTS ..], else 10^4, 10^5, 10^6 and 10^7 events.
# RUNS says how often each is run (else 3); the fastest counts. What they print goes to /dev/null: the asks' lines of `step`, and the report.
# COMMANDS says which of `step run` (else both), HARTS on how many harts (else `1 2 4 8`), LOOPS which loops, of `loop increment atomic` (else
# all), and SMTSIM names another program than that of this repository.
set -eu
root=$(cd "$(dirname "$0")/.." && pwd)
. "$root/bench/rounds.sh"
runs=${RUNS:-3}
[ $# -gt 0 ] || set -- 10000 100000 1000000 10000000

# by_step, by_threads: a run that fills the history. Status 3 says that harts are still going.
by_step() { step "$work/script"; }
by_threads() { "$smtsim" run "$image" --config "$work/config.toml" || [ $? -eq 3 ]; }

# no_step, no_turn: the same without an event: an empty script, and actors without a turn.
no_step() { step "$work/empty"; }
no_turn() {
    { cat "$work/config.toml" && echo 'turns = 0'; } >"$work/still.toml"
    "$smtsim" run "$image" --config "$work/still.toml" || [ $? -eq 3 ]
}

# fastest RUN: the nanoseconds of the fastest run.
fastest() {
    best=
    run=0
    while [ "$run" -lt "$runs" ]; do
        start=$(date +%s%N)
        "$1" >/dev/null
        taken=$(($(date +%s%N) - start))
        if [ -z "$best" ] || [ "$taken" -lt "$best" ]; then best=$taken; fi
        run=$((run + 1))
    done
    echo "$best"
}

# row COMMAND WHOLE START: measures these two, and prints a row.
row() {
    whole=$(fastest "$2")
    start=$(fastest "$3")
    awk -v loop="$loop" -v command="$1" -v harts="$harts" -v events="$events" -v whole="$whole" -v start="$start" 'BEGIN {
        printf "%-9s %-7s %5d %9d %10.3f %10.3f %12.0f %9.0f\n", loop, command, harts, events, whole / 1e9, start / 1e9,
            events * 1e9 / (whole - start), (whole - start) / events }'
}

printf '%-9s %-7s %5s %9s %10s %10s %12s %9s\n' loop command harts events seconds start events/s ns/event
for loop in $loops; do
    for harts in ${HARTS:-1 2 4 8}; do
        try_round "$loop" "$harts"
        for events in "$@"; do
            prepare "$loop" "$harts" "$events"
            for command in ${COMMANDS:-step run}; do
                case $command in
                step) row step by_step no_step ;;
                run) row run by_threads no_turn ;;
                esac
            done
        done
    done
done
