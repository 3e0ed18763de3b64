#!/bin/sh
# Counts, for `smtsim check`, the processor's instructions for an event, those of them that reading the trace takes, and the bytes of memory for
# an event: bench/check.sh [EVENTS ..], else 10^4, 10^5 and 10^6 events. Instructions are those that callgrind counts, memory is the peak
# that time says, all less those of a trace of 100 events. The traces are those of the loops under the scripts of count.sh. A trace whose
# first event isn't allowed is read to its end and then refused at once, so what that takes is its reading. LOOPS and SMTSIM are as in run.sh.
# Debian's packages `valgrind` and `time` are needed.
set -eu
root=$(cd "$(dirname "$0")/.." && pwd)
. "$root/bench/rounds.sh"
[ $# -gt 0 ] || set -- 10000 100000 1000000

# The program itself, not the script that starts it: callgrind counts what it is given.
if [ "$smtsim" = "$root/smtsim" ]; then smtsim=$root/crates/smtsim/out/smtsim; fi

# keep LOOP HARTS EVENTS: a trace of so many events, and the same with a first event of an actor that isn't there.
keep() {
    prepare "$1" "$2" "$3"
    step "$work/script" --trace "$work/trace" >/dev/null
    sed '3s/^F 0 /F 31 /' "$work/trace" >"$work/refused"
}

# check TRACE STATUS COMMAND..: the check of a trace under a command, which has to end with this status: 3 where harts are still going,
# as they are in an endless loop, and 4 where the trace is refused.
check() {
    trace=$1
    status=$2
    shift 2
    came=0
    "$@" "$smtsim" check "$image" "$trace" --config "$work/config.toml" >/dev/null 2>"$work/told" || came=$?
    if [ "$came" -ne "$status" ]; then
        echo "$(basename "$0"): the check of a trace ends with $came in place of $status" >&2
        exit 1
    fi
}

# instructions TRACE STATUS: those of the whole run.
instructions() {
    check "$1" "$2" valgrind --tool=callgrind --callgrind-out-file=/dev/null
    awk '/Collected/ { print $4 }' "$work/told"
}

# memory TRACE: the peak of the whole run, in kilobytes.
memory() {
    check "$1" 3 /usr/bin/time -q -o "$work/counted" -f %M
    cat "$work/counted"
}

printf '%-9s %5s %9s %18s %10s %11s\n' loop harts events instructions/event 'of reading' bytes/event
for loop in $loops; do
    for harts in 1 4; do
        try_round "$loop" "$harts"
        keep "$loop" "$harts" 100
        few=$(instructions "$work/trace" 3)
        begun=$(instructions "$work/refused" 4)
        little=$(memory "$work/trace")
        for events in "$@"; do
            keep "$loop" "$harts" "$events"
            many=$(instructions "$work/trace" 3)
            read=$(instructions "$work/refused" 4)
            much=$(memory "$work/trace")
            awk -v loop="$loop" -v harts="$harts" -v events="$events" -v more="$((many - few))" -v read="$((read - begun))" \
                -v room="$((much - little))" 'BEGIN {
                printf "%-9s %5d %9d %18.0f %10.0f %11.1f\n", loop, harts, events, more / (events - 100), read / (events - 100),
                    room * 1024 / (events - 100) }'
        done
    done
done
