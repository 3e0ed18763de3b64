#!/bin/sh
# compare.sh [PROGRAM]: runs the locks and the barrier under every schedule, on two to eight harts, and the broken lock under its two
# scripts. Compares how the harts end with what the locks promise, and the reports with those that are kept (reports.out): no
# output and status 0 where all agree. PROGRAM is the simulator, without it the one of this repository.
set -eu
here=$(cd "$(dirname "$0")" && pwd)
smtsim=${1:-$here/../../smtsim}
work=$(mktemp -d)
trap 'rm -rf "$work"' EXIT
"$here/schedules.sh" "$work/schedules"

# promised PROGRAM HARTS: how the harts end. A lock keeps all of the eight additions of each; a barrier has no wrong sum.
promised() {
    case $1 in
    barrier) first=0 ;;
    *) first=$((8 * $2)) ;;
    esac
    echo "hart 0 ended $first"
    seq -f 'hart %.0f ended 0' 1 $(($2 - 1))
}

# report PROGRAM SCRIPT CONFIG: runs it and adds its report to those of the others.
report() {
    status=0
    "$smtsim" step "$here/$1.elf" "$2" --config "$here/$3.toml" >"$work/printed" || status=$?
    echo "$1 $(basename "$2" .script): status $status" >>"$work/reports"
    sed -n '/^events /,$p' "$work/printed" >>"$work/reports"
}

agree=0
: >"$work/reports"
for program in swap reserve ticket barrier; do
    for schedule in two_in_turn two_full_latches two_one_by_one three_one_by_one four_in_turn four_full_latches \
        four_one_ahead five_one_by_one eight_one_by_one; do
        case $schedule in
        two_*) harts=2 ;;
        three_*) harts=3 ;;
        four_*) harts=4 ;;
        five_*) harts=5 ;;
        *) harts=8 ;;
        esac
        report "$program" "$work/schedules/$schedule.script" "${schedule%%_*}"
        promised "$program" "$harts" >"$work/wanted"
        grep '^hart ' "$work/printed" >"$work/seen"
        if ! diff "$work/wanted" "$work/seen"; then
            echo "$program breaks its promise under $schedule"
            agree=1
        fi
    done
done
report broken "$here/one_after_the_other.script" two
report broken "$here/both_inside.script" two
if ! diff "$here/reports.out" "$work/reports"; then agree=1; fi
exit "$agree"
