#!/bin/sh
# runs.sh [PROGRAM]: runs the locks, the barrier and the broken lock by threads on 1, 2, 4 and 8 harts, TIMES times each (else ten), and prints
# a table of what came. The locks and the barrier have to keep their promise, the broken lock may lose additions, and the plain machine has
# to make the same in the order of retirement: else a line on standard error and status 1. PROGRAM is the simulator, without it the one of
# this repository. CONFIG is as in by_threads.sh.
set -eu
here=$(cd "$(dirname "$0")" && pwd)
. "$here/../by_threads.sh"

# judge: what hart 0 ended with; the others end with 0. With a lock all of the eight additions of each hart are kept, a barrier has no
# wrong sum, and behind the broken lock at least one addition is kept and none is made up.
judge() {
    first=$(sed -n 's/^hart 0 ended //p' "$work/printed")
    echo "hart 0 ended ${first:-not}"
    case $program in
    barrier) least=0 most=0 ;;
    broken) least=1 most=$harts ;;
    *) least=$((8 * harts)) most=$((8 * harts)) ;;
    esac
    [ "${first:-0}" -ge "$least" ] && [ "${first:-9999}" -le "$most" ] && [ "$(told status)" = "$((first > 0))" ] &&
        [ "$(grep -c '^hart [1-9][0-9]* ended 0$' "$work/printed")" -eq $((harts - 1)) ]
}

for program in swap reserve ticket barrier broken; do
    for harts in $(sizes 1 2 4 8); do runs_of "$program" "$harts"; done
done
exit "$agree"
