# Read by run.sh. A script that is typed at a terminal.

# typed WORDS [STTY..]: runs the program on words as a shell reads them, at a terminal of its own, on
# which the lines of the file `typed` are typed as soon as it no longer shows what is typed; then its
# input ends. Prints what stands on the terminal, and ends as the program does. Behind the words stands
# what else the terminal is set to.
typed() {
    words=$1
    shift
    rm -f ready
    { await ready && by_pieces <typed; } |
        bounded_script -qec "stty -echo $* && : >ready && exec '$smtsim' $words" /dev/null >terminal
    status=$?
    tr -d '\r' <terminal
    return "$status"
}

# Waits until a file is there, for 20 seconds at the most.
await() {
    turns=1000
    until [ -e "$1" ] || [ "$turns" -eq 0 ]; do
        sleep 0.02
        turns=$((turns - 1))
    done
}

# script of util-linux, which would stop for good where the system kills what it runs.
bounded_script() { timeout -k 5 90 script "$@"; }

# shown_by WORDS END: runs the program on words as a shell reads them, at a terminal of its own, and
# ends it as soon as a line of progress that ends so was shown there, or after 20 seconds. What stands
# on the terminal is then in the file `shown`, each line a line. (By no Ctrl-C: where the suite runs in
# the background, that is passed over.)
shown_by() {
    rm -f terminal seen
    { await_shown "$2" && : >seen; } &
    bounded_script -qefc "'$smtsim' $1 & shown=\$!; . '$here/typed.sh'; await seen; kill \$shown; wait" \
        /dev/null </dev/null >terminal
    wait
    tr '\r' '\n' <terminal >shown
}

# Waits until such a line stands in the file `terminal`, for 20 seconds at the most.
await_shown() {
    turns=1000
    until grep -qs "$1.\[K" terminal || [ "$turns" -eq 0 ]; do
        sleep 0.02
        turns=$((turns - 1))
    done
}

# Copies its input by pieces: a terminal has no room for more than 4095 bytes that aren't read yet.
by_pieces() {
    while dd bs=512 count=1 of=piece 2>/dev/null && [ -s piece ]; do
        cat piece
        sleep 0.05
    done
}
