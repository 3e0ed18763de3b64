#!/bin/sh
# compare.sh [PROGRAM]: runs every script, and the plain machine on its order. Each script has to show the outcome that its name
# says, the plain machine the same records, statuses and exit status; and the outcomes of all scripts have to be those that orders
# of whole instructions can have (outcomes.out). `smtsim schedule` has to print the script of each order; beside a script that is
# written by hand, one that makes the core retire the same. No output and status 0 where all agree. PROGRAM is the simulator,
# without it the one of this repository.
set -eu
LC_ALL=C
export LC_ALL
here=$(cd "$(dirname "$0")" && pwd)
smtsim=${1:-$here/../../smtsim}
work=$(mktemp -d)
trap 'rm -rf "$work"' EXIT

# made COMMAND FILE: what the command prints behind its events, and its exit status.
made() {
    status=0
    "$smtsim" "$1" "$here/$test.elf" "$2" --config "$here/$config" --records >"$work/printed" || status=$?
    grep -E '^([0-7] |retired |hart |output )' "$work/printed" || true
    echo "status $status"
}

agree=0
differs() {
    echo "$1"
    agree=1
}

for script in "$here"/*.script; do
    name=$(basename "$script" .script)
    test=${name%%_[0-9]*}
    case $test in
    independent_reads) config=four.toml ;;
    *) config=two.toml ;;
    esac
    made step "$script" >"$work/by_core"
    made plain "$here/$name.order" >"$work/by_plain"
    diff "$work/by_core" "$work/by_plain" || differs "$name: the plain machine does otherwise"
    "$smtsim" schedule "$here/$test.elf" "$here/$name.order" --config "$here/$config" >"$work/scheduled" || agree=1
    outcome=${name#"$test"_}
    case $outcome in
    *_*) # written by hand
        made step "$work/scheduled" | diff "$work/by_core" - || differs "$name: the script of its order retires otherwise"
        ;;
    *) diff "$script" "$work/scheduled" || differs "$name: its order has another script" ;;
    esac
    shown=$(sed -n 's/^hart [0-7] //p' "$work/by_core" | paste -s -d , - | sed 's/,/, /g')
    if [ "$(printf '%s' "$shown" | tr -cd 0-9)" != "${outcome%%_*}" ]; then differs "$name shows $shown"; fi
    echo "$test: $shown" >>"$work/shown"
done
sort "$here/outcomes.out" >"$work/wanted"
sort -u "$work/shown" | diff "$work/wanted" - || differs "the outcomes aren't those that orders can have"
exit "$agree"
