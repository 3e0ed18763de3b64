#!/bin/sh
# Draws the pictures of docs/LITMUS.md again: examples/litmus/pictures.sh [PROGRAM [FOLDER]]
here=$(cd "$(dirname "$0")" && pwd)
smtsim=${1:-$here/../../smtsim}
folder=${2:-$here/pictures}
for name in SB MP LB S R 2+2W WRC ISA2 IRIW CoRR LRSC; do
    "$smtsim" litmus "$here/$name.litmus" --svg "$folder/$name.svg" > "$folder/said" || exit 1
done
sed '/^(/s/0:x7=0/0:x7=1/' "$here/SB.litmus" > "$folder/can.litmus"
"$smtsim" litmus "$folder/can.litmus" --svg "$folder/SB_comes.svg" > "$folder/said" || exit 1
rm "$folder/can.litmus" "$folder/said"
