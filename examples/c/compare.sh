#!/bin/sh
# compare.sh [PROGRAM]: runs the three programs under every schedule, on one hart and on four. Compares what each hart puts out and
# ends with, with what QEMU said of it (NAME.wanted), and the reports with those that are kept (reports.out): no output and status 0
# where all agree. PROGRAM is the simulator, without it the one of this repository.
set -eu
here=$(cd "$(dirname "$0")" && pwd)
smtsim=${1:-$here/../../smtsim}
work=$(mktemp -d)
trap 'rm -rf "$work"' EXIT
"$here/schedules.sh" "$work/schedules"

# A line for each hart, of the records and the report that are read: the bytes that it has put out, and how it stands.
outcomes() {
    awk 'NF == 8 && $1 ~ /^[0-7]$/ && $8 != "-" { bytes[$1] = bytes[$1] $8 }
        $1 == "hart" { print "hart", $2, "output", ($2 in bytes ? bytes[$2] : "-"), $3, $4 }'
}

agree=0
: >"$work/reports"
for program in sort primes search; do
    for schedule in in_order full_latches late_units four_in_turn four_full_latches four_late_units; do
        case $schedule in
        four_*) harts=4 && set -- --config "$here/four.toml" ;;
        *) harts=1 && set -- ;;
        esac
        status=0
        "$smtsim" step "$here/$program.elf" "$work/schedules/$schedule.script" --records "$@" >"$work/printed" || status=$?
        head -n "$harts" "$here/$program.wanted" >"$work/wanted"
        outcomes <"$work/printed" >"$work/seen"
        if ! diff "$work/wanted" "$work/seen"; then
            echo "$program differs from QEMU's under $schedule"
            agree=1
        fi
        echo "$program $schedule: status $status" >>"$work/reports"
        sed -n '/^events /,$p' "$work/printed" >>"$work/reports"
    done
done
if ! diff "$here/reports.out" "$work/reports"; then agree=1; fi
exit "$agree"
