#!/bin/sh
# run.sh [PROGRAM] [NAME..]: runs the built program on the runs of cases/ (all of them, or those
# named), prints what differs as a diff, and counts. PROGRAM has a slash in it; without one it is
# the program that the gate has built. README.md says how a run is added.
set -u
LC_ALL=C
export LC_ALL
here=$(cd "$(dirname "$0")" && pwd) || exit 1
smtsim=$here/../../crates/smtsim/out/smtsim
case ${1-} in
*/*)
    smtsim=$(cd "$(dirname "$1")" && pwd)/${1##*/}
    shift
    ;;
esac
if [ ! -x "$smtsim" ]; then
    echo "run.sh: there is no program $smtsim: .ci/run builds it" >&2
    echo "0 passed, 1 failed"
    exit 1
fi
scratch=$(mktemp -d) || exit 1
trap 'rm -rf "$scratch"' EXIT
trap 'exit 1' HUP INT TERM
# The help names the program by the name that it was started under.
mkdir "$scratch/bin" && ln -s "$smtsim" "$scratch/bin/smtsim" && smtsim=$scratch/bin/smtsim
# Whatever a broken program does, a run ends, and takes no more than the machine has.
ulimit -t 30
ulimit -v 4000000

# Takes a run's file apart: each section into a file of its own, and what is to be there when the
# run begins.
split() {
    awk -v to="$scratch/run" '
        BEGIN { part = to "/head" }
        /^-- file / { part = to "/in/" $3; printf "" > part; next }
        /^-- (prepare|do|stdout|expect|stderr)$/ { part = to "/" $2; printf "" > part; next }
        part == to "/stdout" && /^%[0-9]+ / {
            times = substr($1, 2)
            sub(/^%[0-9]+ /, "")
            while (times-- > 0) print > part
            next
        }
        { print > part }' "$1"
}

# What is given under a name in the head of a run's file.
given() { sed -n "s/^$1: //p" "$scratch/run/head"; }

# Compares what was found with what is wanted, and says so by a diff.
same() {
    cmp -s "$1" "$2" || {
        diff -u "$1" "$2" | sed -e "1s/.*/--- $3, wanted/" -e "2s/.*/+++ $3, found/" -e 25q
        return 1
    }
}

# Runs one, in a folder of its own, and prints what differs.
try() {
    at=$scratch/run
    rm -rf "$at"
    mkdir -p "$at/in"
    : >"$at/stdout" && : >"$at/stderr"
    split "$1"
    ln -s "$here/images" "$at/in/images"
    [ -e "$at/do" ] || printf '"$smtsim" %s\n' "$(given words)" >"$at/do"
    (
        cd "$at/in" || exit 99
        if [ -e ../prepare ]; then . ../prepare; fi
        . ../do >../out 2>../err
    )
    echo $? >"$at/ended"
    if [ -e "$at/expect" ]; then (cd "$at/in" && . ../expect) >"$at/stdout"; fi
    given status >"$at/status"
    right=0
    same "$at/stdout" "$at/out" "standard output" || right=1
    same "$at/stderr" "$at/err" "standard error" || right=1
    same "$at/status" "$at/ended" "exit status" || right=1
    return $right
}

# For the runs under little memory (README.md, "limits").
. "$here/limits.sh"
# For those of a script that is typed.
. "$here/typed.sh"

[ $# -gt 0 ] || set -- "$here"/cases/*.run
passed=0
failed=0
for name in "$@"; do
    name=${name##*/}
    name=${name%.run}
    if [ -e "$here/cases/$name.run" ] && try "$here/cases/$name.run" >"$scratch/differs" 2>&1; then
        passed=$((passed + 1))
    else
        failed=$((failed + 1))
        echo "FAILED: $name"
        cat "$scratch/differs" 2>/dev/null
    fi
done
echo "$passed passed, $failed failed"
[ "$failed" -eq 0 ] && [ "$passed" -gt 0 ]
