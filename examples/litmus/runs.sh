#!/bin/sh
# runs.sh [PROGRAM]: runs the litmus tests by threads on 2, 4 and 8 harts, TIMES times each (else ten), and prints a table of what came. Each
# outcome has to be one that an order of whole instructions can have (outcomes.out), and the plain machine has to make the same in the order
# of retirement: else a line on standard error and status 1. PROGRAM is the simulator, without it the one of this repository. CONFIG is as in
# by_threads.sh.
set -eu
here=$(cd "$(dirname "$0")" && pwd)
. "$here/../by_threads.sh"

# groups: which harts make the test; on more harts than it needs there are several of them. In each the first writes, or both do.
groups() {
    case $program in
    message_passing | coherent_reads) seq -f '0 %.0f' 1 $((harts - 1)) ;;
    store_buffering | load_buffering) seq 0 2 $((harts - 1)) | awk '{ print $1, $1 + 1 }' ;;
    independent_reads) seq 2 2 $((harts - 1)) | awk '{ print 0, 1, $1, $1 + 1 }' ;;
    esac
}

# judge: for each group what its harts ended with, one number behind the other.
judge() {
    rm -f "$work/wrong"
    groups | while read -r group; do
        outcome=$(for hart in $group; do told "hart $hart"; done | paste -s -d , - | sed 's/,/, /g')
        printf '`%s`\n' "$(printf '%s' "$outcome" | tr -cd 0-9)"
        grep -q -x "$program: $outcome" "$here/outcomes.out" || touch "$work/wrong"
    done
    [ ! -e "$work/wrong" ]
}

for program in message_passing store_buffering load_buffering coherent_reads independent_reads; do
    for harts in $(sizes 2 4 8); do
        # Independent reads take two that write and two that read.
        if [ "$program $harts" != "independent_reads 2" ]; then runs_of "$program" "$harts"; fi
    done
done
exit "$agree"
