#!/bin/sh
# Counts what an event of `step` costs while instructions wait in the issue queue: bench/queue.sh [ROUNDS], else 2000 rounds of 48 events. Hart 0
# has a multiplication that its unit holds, and 40 instructions that wait behind it; hart 1 runs its loop. Beside it a queue of 16 in which
# none waits. Instructions are those that callgrind counts, less those of a run of 20 rounds. SMTSIM is as in run.sh; `valgrind` is needed.
set -eu
root=$(cd "$(dirname "$0")/.." && pwd)
. "$root/bench/rounds.sh"
rounds=${1:-2000}
if [ "$smtsim" = "$root/smtsim" ]; then smtsim=$root/crates/smtsim/out/smtsim; fi

# begin WAITING: what stands before the rounds. Both harts are fetched; hart 1 leaves the branch at the start; where instructions are to
# wait, hart 0's multiplication is issued and never handed back, and its other instructions go into the queue.
begin() {
    echo 'F0*16 D1.1*2 R1.1*2 U3 T2.1 F0*8 D1.1*8 R1.1*8'
    echo 'U3*6 U6*2 T2.1*8'
    [ "$1" = none ] || echo 'D1.0*8 R1.0*8 U3 T2.0 I4'
    echo 'F0*8'
    [ "$1" = none ] || { for _turn in 1 2 3 4; do echo 'F0*8 D1.0*8 R1.0*8'; done; echo 'F0*2 D1.0*2 R1.0*2'; }
    echo 'D1.1*8 R1.1*8 U3*6 U6*2 T2.1*8'
}

# round: eight instructions of hart 1 from the fetch to the end.
round='F0*8 D1.1*8 R1.1*8 U3*6 U6*2 T2.1*8'

# asks IMAGE WAITING QUEUE ROUNDS: makes the files of a run.
asks() {
    image=$root/bench/$1.elf
    printf 'harts = 2\nqueue = %s\nextra = 256\nlimit = 16777216\n' "$3" >"$work/config.toml"
    echo 'actors = ["fetch", "front", "retire", "alu", "mul", "mem", "mul"]' >>"$work/config.toml"
    { begin "$2"; yes "$round" | head -n "$4"; } >"$work/script"
}

instructions() {
    asks "$1" "$2" "$3" "$4"
    valgrind --tool=callgrind --callgrind-out-file=/dev/null "$smtsim" step "$image" "$work/script" --config "$work/config.toml" \
        2>"$work/counted" >/dev/null || [ $? -eq 3 ]
    awk '/Collected/ { print $4 }' "$work/counted"
}

printf '%-9s %-9s %6s %18s\n' program waiting queue instructions/event
for case in 'waiting none 16' 'waiting none 64' 'waiting forty 64' 'chain forty 64'; do
    # shellcheck disable=SC2086
    set -- $case
    asks "$1" "$2" "$3" 20
    idle=$(step "$work/script" | awk '$1 == "idle" || $1 == "full" { idle++ } END { print idle + 0 }')
    [ "$idle" -eq 0 ] || echo "$(basename "$0"): $idle asks of $1, $2, are idle" >&2
    few=$(instructions "$1" "$2" "$3" 20)
    many=$(instructions "$1" "$2" "$3" "$rounds")
    awk -v a="$1" -v b="$2" -v c="$3" -v more="$((many - few))" -v rounds="$rounds" 'BEGIN {
        printf "%-9s %-9s %6d %18.0f\n", a, b, c, more / (48 * (rounds - 20)) }'
done
