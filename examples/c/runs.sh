#!/bin/sh
# runs.sh [PROGRAM]: runs the three programs by threads on 1, 2, 4 and 8 harts, TIMES times each (else ten), and prints a table of what
# came. What each hart puts out and ends with has to be what QEMU said of it (NAME.wanted), and the plain machine has to make the same in
# the order of retirement: else a line on standard error and status 1. PROGRAM is the simulator, without it the one of this repository.
set -eu
here=$(cd "$(dirname "$0")" && pwd)
. "$here/../by_threads.sh"

# judge: the bytes that each hart has put out, by the records, and how it stands.
judge() {
    awk 'NF == 8 && $1 ~ /^[0-7]$/ && $8 != "-" { bytes[$1] = bytes[$1] $8 }
        $1 == "hart" { print "hart", $2, "output", ($2 in bytes ? bytes[$2] : "-"), $3, $4 }' "$work/printed" >"$work/seen"
    echo "as QEMU has it, $(told retired) retired"
    head -n "$harts" "$here/$program.wanted" | cmp -s - "$work/seen"
}

for program in sort primes search; do
    for harts in 1 2 4 8; do runs_of "$program" "$harts"; done
done
exit "$agree"
