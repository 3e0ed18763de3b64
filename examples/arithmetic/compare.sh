#!/bin/sh
# Runs the three programs under every schedule, and compares what each hart puts out and ends with, with the same function
# compiled for this machine: no output and status 0 where all agree. Needs a C compiler (`cc`, or what CC names).
set -eu
here=$(cd "$(dirname "$0")" && pwd)
root=$(cd "$here/../.." && pwd)
work=$(mktemp -d)
trap 'rm -rf "$work"' EXIT

# A line for each hart, of the records and the report that are read: the bytes that it has put out, and how it stands.
outcomes() {
    awk 'NF == 8 && $1 ~ /^[0-7]$/ && $8 != "-" { bytes[$1] = bytes[$1] $8 }
        $1 == "hart" { print "hart", $2, "output", ($2 in bytes ? bytes[$2] : "-"), $3, $4 }'
}

agree=0
for program in primes gcd random; do
    "${CC:-cc}" -std=c11 -O2 -o "$work/$program" "$here/$program.c"
    for script in "$here"/schedules/*.script; do
        case $script in
        */two_*) harts=2 && set -- --config "$here/two.toml" ;;
        *) harts=1 && set -- ;;
        esac
        "$work/$program" "$harts" >"$work/wanted"
        "$root/smtsim" step "$here/$program.elf" "$script" --records "$@" | outcomes >"$work/seen"
        if ! diff "$work/wanted" "$work/seen"; then
            echo "$program differs under $(basename "$script")"
            agree=1
        fi
    done
done
exit "$agree"
