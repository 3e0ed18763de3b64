#!/bin/sh
# native.sh [PROGRAM]: makes library.c for this machine by its own compiler (cc, or CC), and compares what it prints with
# library.wanted; then what library.elf puts out on the plain machine and by threads: no output and status 0 where all
# agree. PROGRAM is the simulator, without it the one of this repository.
set -eu
here=$(cd "$(dirname "$0")" && pwd)
smtsim=${1:-$here/../../smtsim}
work=$(mktemp -d)
trap 'rm -rf "$work"' EXIT
"${CC:-cc}" -O2 -o "$work/library" "$here/library.c" -lm
"$work/library" >"$work/native"
diff "$here/library.wanted" "$work/native"
od -An -v -tx1 "$work/native" | tr -d ' \n' >"$work/wanted"
for way in "plain --rounds 1000" "run"; do
    # The words of a way stand before the image's name or behind it alike.
    "$smtsim" $way "$here/library.elf" --config "$here/library.toml" >"$work/report"
    sed -n 's/^output //p' "$work/report" | tr -d '\n' | cmp "$work/wanted" -
done
