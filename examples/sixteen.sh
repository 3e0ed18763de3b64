#!/bin/sh
# sixteen.sh [PROGRAM]: runs the locks, the barrier and the litmus tests by the threads of thirty-two actors on sixteen harts (sixteen.toml), TIMES
# times each (else ten), and prints tables of what came. What may come, and what is said of another, is as in runs.sh of locks and of litmus: the
# exit status is 1 where something came that isn't allowed. PROGRAM is the simulator, without it the one of this repository.
set -u
here=$(cd "$(dirname "$0")" && pwd)
CONFIG=$here/sixteen.toml
export CONFIG
agree=0
for programs in locks litmus; do
    "$here/$programs/runs.sh" "$@" || agree=1
done
exit "$agree"
