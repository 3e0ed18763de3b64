# Read by run.sh. With little memory the program says so, or it gives its answer; it never says or
# does anything else, and no signal ends it.

# Prints the least address space in KiB, to 4, with which the program begins at all: below it the
# dynamic linker, or the system, has no room for the program's own pages. It is looked for once.
least() {
    [ -e "$scratch/least" ] || (
        limit=1024
        until begins "$limit" || [ "$limit" -ge 65536 ]; do limit=$((limit + 128)); done
        limit=$((limit - 128))
        until begins "$limit" || [ "$limit" -ge 65536 ]; do limit=$((limit + 4)); done
        echo "$limit" >"$scratch/least"
    ) 2>/dev/null
    cat "$scratch/least"
}

# Whether the program begins with so much: it then says something of its own.
begins() {
    (ulimit -v "$1" && exec "$smtsim") >"$scratch/begins" 2>&1
    grep -q '^smtsim: ' "$scratch/begins" && ! has_no_room "$scratch/begins"
}

# What a shell or the dynamic linker say where there is no room to begin.
has_no_room() { grep -q -e 'shared librar' -e 'ut of space' -e 'annot allocate' "$1"; }

# limits COUNT STEP WORDS..: runs the program on the words with the least address space with which
# it begins, and then with STEP KiB more each time, until it gave its answer three times in a row,
# or COUNT times. Prints what came of it, one line for each kind of outcome in a row: `memory` for
# exactly that refusal, `answer` for exactly what the program does with all the memory that it
# wants, and all else in full, a signal too.
limits() {
    count=$1
    step=$2
    shift 2
    limit=$(least)
    answers=0
    has_begun=
    many=
    [ $# -lt 1000 ] || many=yes
    "$smtsim" "$@" >answer.out 2>answer.err
    wanted=$?
    while [ "$count" -gt 0 ] && [ "$answers" -lt 3 ]; do
        (ulimit -v "$limit" && exec "$smtsim" "$@") >limit.out 2>limit.err
        outcome $? "$limit"
        limit=$((limit + step))
        count=$((count - 1))
    done >outcomes 2>/dev/null # (where a shell says that a signal ended what it ran)
    uniq outcomes
}

# What came of one limit, which gave this status.
outcome() {
    said='' && more=''
    { IFS= read -r said; IFS= read -r more; } <limit.err
    # For thousands of words there may be no room yet, and the system ends what hasn't begun by a
    # signal.
    is_silent=
    [ -s limit.out ] || [ -s limit.err ] || is_silent=yes
    if [ "$many" ] && [ -z "$has_begun" ] && [ "$1" -ge 128 ] && [ "$is_silent" ]; then return; fi
    if has_no_room limit.err; then return; fi
    has_begun=yes
    if [ "$1" = "$wanted" ] && cmp -s answer.out limit.out && cmp -s answer.err limit.err; then
        echo answer
        answers=$((answers + 1))
        return
    fi
    answers=0
    if [ "$1" = 5 ] && [ "$said" = 'smtsim: memory' ] && [ -z "$more" ] && [ ! -s limit.out ]; then
        echo memory
    else
        echo "with $2 KiB: status $1, $(head -c 200 limit.err), $(head -c 200 limit.out)"
    fi
}
