# Read by run.sh and count.sh, with root set: the loops, and the scripts that fill a history with them.
# shellcheck disable=SC2034  # loops is for those that read this file.
smtsim=${SMTSIM:-$root/smtsim}
loops=${LOOPS:-loop increment atomic patching}
work=$(mktemp -d)
trap 'rm -rf "$work"' EXIT
: >"$work/empty"
"$smtsim" --help >/dev/null

# units LOOP HARTS: the steps of the units in a round of so many harts, in an order in which no ask is idle and no load looks too early. The
# beginning is the three instructions before the loops that touch memory.
units() {
    case $1 in
    beginning) echo "U3*$((3 * $2))" ;;
    loop) echo "U3*$((6 * $2)) U4*$((2 * $2))" ;;
    increment) echo "U5*$2 U3*$2 U5*$((2 * $2)) U3*$((3 * $2)) U5*$2" ;;
    atomic) echo "U3*$((6 * $2)) U5*$((2 * $2))" ;;
    patching) echo "U5*$((6 * $2)) U3*$((2 * $2))" ;;
    esac
}

# a_round LOOP HARTS INSTRUCTIONS: takes so many instructions of each hart from the fetch to the end, six events each. Behind the fetch come eight
# harts at the most at a time, since the queue has 64 places.
a_round() {
    printf 'F0*%s' $(($2 * $3))
    first=0
    while [ "$first" -lt "$2" ]; do
        last=$((first + 7 < $2 ? first + 7 : $2 - 1))
        printf " D1.%s*$3" $(seq "$first" "$last")
        printf " R1.%s*$3" $(seq "$first" "$last")
        printf ' %s' "$(units "$1" $((last - first + 1)))"
        printf " T2.%s*$3" $(seq "$first" "$last")
        first=$((last + 1))
    done
    echo
}

# prepare LOOP HARTS EVENTS: the settings, under which the history is full after so many events, and a script that fills it. A round
# is eight instructions, two turns of the loop. Before the first round stand the three instructions before the loops that touch memory.
prepare() {
    image=$root/bench/$1.elf
    printf 'harts = %s\nqueue = 64\nlimit = %s\n' "$2" "$3" >"$work/config.toml"
    : >"$work/script"
    [ "$1" = loop ] || a_round beginning "$2" 3 >"$work/script"
    yes "$(a_round "$1" "$2" 8)" | head -n $(($3 / (48 * $2) + 1)) >>"$work/script"
}

# step SCRIPT ..: with options behind it. Status 3 says that harts are still going, as they are in an endless loop.
step() {
    script=$1
    shift
    "$smtsim" step "$image" "$script" --config "$work/config.toml" "$@" || [ $? -eq 3 ]
}

# try_round LOOP HARTS: every round is like the first ones, so if a short script fills its history, so does a long one.
try_round() {
    prepare "$1" "$2" 10000
    made=$(step "$work/script" | awk '$1 == "events" { print $2 } $1 == "idle" { idle++ } END { print idle + 0, "idle" }' | xargs)
    if [ "$made" != "10000 0 idle" ]; then
        echo "$(basename "$0"): the script of $1 for $2 harts makes ${made:-no} events in place of 10000" >&2
        exit 1
    fi
}
