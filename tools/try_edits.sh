#!/bin/sh
# Tries the edits of tools/edits, which the gate leaves out so that it stays short: the prover must refuse each of them.
# usage: tools/try_edits.sh [CRATE ..]    (all crates, where none is named; some 20 to 40 seconds an edit)
#
# It works on a copy of the repository, in which each crate's own edits are replaced by those of tools/edits.
set -eu
top=$(cd "$(dirname "$0")/.." && pwd)
room=$(mktemp -d)
trap 'rm -rf "$room"' EXIT
cp -rp "$top/crates" "$top/crates.txt" "$top/HANDLES" "$room"
rm -rf "$room"/crates/*/must-fail
[ $# -gt 0 ] || set -- $(ls "$top/tools/edits")
for crate in "$@"; do
    cp -r "$top/tools/edits/$crate" "$room/crates/$crate/must-fail"
done
cd "$room"
rt must-fail "$@"
