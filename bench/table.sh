#!/bin/sh
# Prints one table of what an event costs (of `plain`, a step), for `step`, `check`, `plain` and `run`: bench/table.sh [COUNTED [TIMED]].
# Instructions are those that callgrind counts of so many events (else 10^5); nanoseconds, of the fastest of RUNS runs (else 3), and bytes, of
# the peak of memory, are of so many (else 10^6). From all of them those of 100 events are taken off. HARTS says on how many harts (else `1 4 16`),
# LOOPS and SMTSIM are as in run.sh. Where one of Debian's packages `valgrind` and `time` isn't there, it says so and leaves its column open.
set -eu
root=$(cd "$(dirname "$0")/.." && pwd)
. "$root/bench/rounds.sh"
counted=${1:-100000}
timed=${2:-1000000}
runs=${RUNS:-3}

# The program itself, not the script that starts it: callgrind counts what it is given.
if [ "$smtsim" = "$root/smtsim" ]; then smtsim=$root/crates/smtsim/out/smtsim; fi

has_valgrind=yes
command -v valgrind >/dev/null || has_valgrind=
has_time=yes
[ -x /usr/bin/time ] || has_time=
[ -n "$has_valgrind" ] || echo "$(basename "$0"): no valgrind here, so no instructions are counted: apt-get install valgrind" >&2
[ -n "$has_time" ] || echo "$(basename "$0"): no /usr/bin/time here, so no memory is measured: apt-get install time" >&2

# ready COMMAND LOOP HARTS EVENTS: makes the files of a run that makes so many events, or of `plain` so many steps, its harts in turn.
ready() {
    prepare "$2" "$3" "$4"
    case $1 in
    check) step "$work/script" --trace "$work/trace" >/dev/null ;;
    plain) yes "$(seq -s ' ' 0 $(($3 - 1)))" | head -n $(($4 / $3)) >"$work/order" ;;
    esac
}

# made COMMAND WORD ..: the run that was made ready, under the words. Status 3 says that harts are still going, as they are in an endless loop.
made() {
    command=$1
    shift
    case $command in
    step) set -- "$@" "$smtsim" step "$image" "$work/script" ;;
    check) set -- "$@" "$smtsim" check "$image" "$work/trace" ;;
    plain) set -- "$@" "$smtsim" plain "$image" "$work/order" ;;
    run) set -- "$@" "$smtsim" run "$image" ;;
    esac
    "$@" --config "$work/config.toml" >/dev/null 2>"$work/told" || [ $? -eq 3 ]
}

instructions() {
    [ -n "$has_valgrind" ] || { echo 0; return; }
    made "$1" valgrind --tool=callgrind --callgrind-out-file=/dev/null
    awk '/Collected/ { print $4 }' "$work/told"
}

kilobytes() {
    [ -n "$has_time" ] || { echo 0; return; }
    made "$1" /usr/bin/time -q -o "$work/measured" -f %M
    cat "$work/measured"
}

nanoseconds() {
    best=
    run=0
    while [ "$run" -lt "$runs" ]; do
        start=$(date +%s%N)
        made "$1"
        taken=$(($(date +%s%N) - start))
        if [ -z "$best" ] || [ "$taken" -lt "$best" ]; then best=$taken; fi
        run=$((run + 1))
    done
    echo "$best"
}

printf '%-7s %-9s %5s %12s %12s %9s\n' command loop harts instructions nanoseconds bytes
for command in step check plain run; do
    for loop in $loops; do
        for harts in ${HARTS:-1 4 16}; do
            try_round "$loop" "$harts"
            ready "$command" "$loop" "$harts" 100
            few=$(instructions "$command")
            brief=$(nanoseconds "$command")
            little=$(kilobytes "$command")
            ready "$command" "$loop" "$harts" "$counted"
            many=$(instructions "$command")
            ready "$command" "$loop" "$harts" "$timed"
            long=$(nanoseconds "$command")
            much=$(kilobytes "$command")
            awk -v command="$command" -v loop="$loop" -v harts="$harts" -v counted="$counted" -v timed="$timed" -v more="$((many - few))" \
                -v longer="$((long - brief))" -v room="$((much - little))" 'BEGIN {
                a = more > 0 ? sprintf("%.0f", more / (counted - 100)) : "-"
                b = room > 0 ? sprintf("%.1f", room * 1024 / (timed - 100)) : "-"
                printf "%-7s %-9s %5d %12s %12.0f %9s\n", command, loop, harts, a, longer / (timed - 100), b }'
        done
    done
done
