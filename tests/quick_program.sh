#!/bin/sh
# Makes the unproved program that a newcomer's first call makes (tools/quick_program.py), and with it all runs of tests/runs. Its last line
# counts: N passed, M failed.
set -u
root=$(cd "$(dirname "$0")/.." && pwd) || exit 1
if ! "$root/tools/quick_program.py" --optimized; then
    echo "0 passed, 1 failed"
    exit 1
fi
exec "$root/tests/runs/run.sh" "$root/out/quick/smtsim"
