#!/bin/sh
# make.sh [gnu|llvm]..: makes the images of the suite by GNU's or LLVM's compiler, or by both where none is named, with
# examples/start/image.sh: NAME.elf of each NAME.c, and NAME.twin.elf of each line `Right: -DTWIN` or `Wrong: -DTWIN` of
# its head. They go into gnu/ and llvm/ beside this, or in the folder that OUT names. HARTS=3 ROUNDS=2 before the
# command makes them for three harts and two rounds, where a twin's line doesn't say how many; ONLY='peterson swap' makes
# those of these programs; CFLAGS has flags of your own.
set -eu
here=$(cd "$(dirname "$0")" && pwd)
out=${OUT:-$here}
harts=${HARTS:-2}
unset HARTS # which image.sh would take for its own

# Of each program a line for each image: its name, and flags.
images() {
    for program in ${ONLY:-$(cd "$here" && ls ./*.c | sed 's|^\./||; s|\.c$||')}; do
        awk -v program="$program" '
            $1 == "Asked:" { print program }
            $1 == "Right:" || $1 == "Wrong:" {
                flags = ""
                for (k = 2; $k ~ /^-D/; k++) flags = flags " " $k
                sub(/:$/, "", flags)
                twin = tolower(substr($2, 3))
                gsub(/[^a-z0-9_].*/, "", twin)
                print program "." twin flags
            }' "$here/$program.c"
    done
}

for TOOLS in ${*:-gnu llvm}; do
    export TOOLS
    mkdir -p "$out/$TOOLS"
    images | while read -r name flags; do
        case $flags in *-DHARTS=*) ;; *) flags="-DHARTS=$harts $flags" ;; esac
        case $flags in *-DROUNDS=*) ;; *) flags="${ROUNDS:+-DROUNDS=$ROUNDS} $flags" ;; esac
        image=$out/$TOOLS/$name.elf
        CFLAGS="-Werror $flags ${CFLAGS:-}" "$here/../start/image.sh" --harts 8 "$here/${name%%.*}.c" "$image"
        chmod 644 "$image"
    done
done
