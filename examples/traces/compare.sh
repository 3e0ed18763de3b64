#!/bin/sh
# compare.sh [PROGRAM]: checks every trace, and compares what is said with what is kept (said.out); the run of the overtaken load has to
# write its trace, and those of version 1 have to become those of version 3. No output and status 0 where all agree. PROGRAM is the simulator, without it the one of this repository.
set -eu
LC_ALL=C
export LC_ALL
here=$(cd "$(dirname "$0")" && pwd)
smtsim=${1:-$here/../../smtsim}
work=$(mktemp -d)
trap 'rm -rf "$work"' EXIT

# checked TRACE IMAGE CONFIG: what is said of a trace, and the exit status.
checked() {
    status=0
    "$smtsim" check "$here/$2" "$here/$1.trace" --config "$here/$3" >"$work/printed" 2>"$work/fault" || status=$?
    echo "$1: status $status"
    cat "$work/printed"
    sed -n '/^smtsim: /p' "$work/fault" | tail -n 1
}

agree=0
overtaken=../overtaken/overtaken.elf
{
    for trace in overtaken overtaken_version_1 first_value first_value_version_1 survivor register_twice; do checked "$trace" "$overtaken" ../overtaken/two.toml; done
    checked two_inside ../locks/swap.elf ../locks/two.toml
    checked stale_sc reserve_and_store.elf two.toml
} >"$work/said"
if ! diff "$here/said.out" "$work/said"; then agree=1; fi

status=0
"$smtsim" step "$here/$overtaken" "$here/../overtaken/overtaken.script" --config "$here/../overtaken/two.toml" \
    --trace "$work/written.trace" >"$work/printed" || status=$?
if [ "$status" -ne 3 ] || ! diff "$here/overtaken.trace" "$work/written.trace"; then
    echo "the run of the overtaken load writes another trace"
    agree=1
fi
for trace in overtaken first_value; do
    if ! "$smtsim" migrate "$here/${trace}_version_1.trace" "$work/migrated.trace" --config "$here/../overtaken/two.toml" ||
        ! diff "$here/$trace.trace" "$work/migrated.trace"; then
        echo "$trace is migrated otherwise"
        agree=1
    fi
done
exit "$agree"
