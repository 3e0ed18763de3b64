#!/bin/sh
# fifty.sh [PROGRAM]: makes two runs by threads fifty times each (or TIMES times), whose sums no order of the harts changes: 4000 additions
# by AMOADD in front of a barrier, and 400 under a spin lock. Prints what differs, and counts, as run.sh does. PROGRAM has a slash in it;
# without one it is the program that the gate has built.
set -eu
here=$(cd "$(dirname "$0")" && pwd)
# shellcheck disable=SC2046  # each word is the name of a run
exec "$here/run.sh" ${1+"$1"} $(yes 'run_counter_and_barrier run_counter_under_a_lock' | head -n "${TIMES:-50}")
