#!/bin/sh
# Counts what rounds with a misprediction cost in `step`: bench/wrong.sh [ROUNDS], else 400. In each round hart 0 has a multiplication that
# waits, OLDER instructions that wait for it, MANY branches that wait for it and are predicted right, a branch that is predicted wrong and
# completes at once, and YOUNGER ones that it squashes. Where 8 others wait, no place is left for its map. Instructions are those that callgrind
# counts, less those of a run of 20 rounds. To compare, name another program by SMTSIM, as in run.sh; `valgrind` is needed.
set -eu
root=$(cd "$(dirname "$0")/.." && pwd)
. "$root/bench/rounds.sh"
rounds=${1:-400}
if [ "$smtsim" = "$root/smtsim" ]; then smtsim=$root/crates/smtsim/out/smtsim; fi

# image OLDER MANY YOUNGER: mul; so many adds that wait for it; so many branches that are never taken, and wait for it; a branch over the
# younger ones, which nothing holds up; the younger ones; a jump back.
image() {
    PYTHONPATH=$root/tools/expected python3 - "$@" >"$work/wrong.elf" <<'END'
import sys
from image import build

older, many, younger = map(int, sys.argv[1:])
MUL, ADD, NEVER = 0x025282B3, 0x005282B3, 0x00529463  # mul x5,x5,x5; add x5,x5,x5; bne x5,x5,+8
branch = lambda offset: 0x00000063 | (offset >> 11 & 1) << 7 | (offset >> 1 & 15) << 8 | (offset >> 5 & 63) << 25
jump = lambda offset: 0x6F | (offset >> 20 & 1) << 31 | (offset >> 1 & 1023) << 21 | (offset >> 11 & 1) << 20 | (offset >> 12 & 255) << 12
code = [MUL] + [ADD] * older + [NEVER] * many + [branch(4 * (younger + 1))] + [0x00138393] * younger  # addi x7,x7,1
sys.stdout.buffer.write(build(code + [jump(-4 * len(code) & 0x1FFFFF)]))
END
}

# front COUNT: so many instructions from the fetch to the queue.
front() {
    left=$1
    while [ "$left" -gt 0 ]; do
        some=$((left < 8 ? left : 8))
        printf 'F0*%s D1.0*%s R1.0*%s ' "$some" "$some" "$some"
        left=$((left - some))
    done
}

# instructions OLDER MANY YOUNGER ROUNDS: of such a run.
instructions() {
    image "$1" "$2" "$3"
    printf 'queue = 64\nextra = 256\nlimit = 16777216\n' >"$work/config.toml"
    before=$(($1 + $2 + 1))
    round="$(front $((before + 1 + $3))) U3 $(front 1) U4 U3*$(($1 + $2 + 1)) T2.0*$((before + 2))"
    yes "$round" | head -n "$4" >"$work/script"
    valgrind --tool=callgrind --callgrind-out-file="$work/calls" "$smtsim" step "$work/wrong.elf" "$work/script" --config "$work/config.toml" \
        2>"$work/counted" >"$work/out" || [ $? -eq 3 ]
    idle=$(awk '$1 == "idle" || $1 == "full" { idle++ } END { print idle + 0 }' "$work/out")
    [ "$idle" -eq 0 ] || echo "$(basename "$0"): $idle asks of $* are idle" >&2
    awk '/Collected/ { print $4 }' "$work/counted"
}

printf '%5s %5s %8s %19s\n' older many younger instructions/round
for case in '0 0 60' '20 0 40' '40 0 20' '59 0 1' '0 8 52' '32 8 20' '51 8 1'; do
    # shellcheck disable=SC2086
    set -- $case
    few=$(instructions "$1" "$2" "$3" 20)
    more=$(instructions "$1" "$2" "$3" "$rounds")
    printf '%5d %5d %8d %19d\n' "$1" "$2" "$3" $(((more - few) / (rounds - 20)))
done
