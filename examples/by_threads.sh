# Read by the runs.sh of c, locks and litmus, with `here` set to their folder: makes runs by `smtsim run` and counts what comes of them.
# CONFIG names a configuration; then all runs are of its harts and its actors, in place of those that the runs.sh names.
# Their `judge` prints what a run came to, a line for each outcome, and fails where the run didn't end as it should.
# shellcheck shell=sh disable=SC2154  # here is set by those that read this file.
LC_ALL=C
export LC_ALL
smtsim=${1:-$here/../../smtsim}
times=${TIMES:-10}
agree=0
work=$(mktemp -d)
trap 'rm -rf "$work"' EXIT
trap 'exit 1' HUP INT TERM
"$smtsim" --help >/dev/null

# sizes HARTS ..: on how many harts the runs are.
sizes() {
    if [ -n "${CONFIG:-}" ]; then sed -n 's/^harts = //p' "$CONFIG"; else echo "$@"; fi
}

# configure: makes the configuration of a run. The history has so much room that no waiting fills it.
configure() {
    if [ -n "${CONFIG:-}" ]; then
        cp "$CONFIG" "$work/config.toml"
    else
        printf 'harts = %s\nqueue = 64\nlimit = 16000000\n' "$harts" >"$work/config.toml"
    fi
}

# run_once: a run of $program on $harts harts, with its records.
run_once() {
    configure
    status=0
    "$smtsim" run "$here/$program.elf" --config "$work/config.toml" --records >"$work/printed" || status=$?
    echo "status $status" >>"$work/printed"
}

# same_by_plain: whether the plain machine, in the order of retirement, has the same records, harts, bytes and exit status.
same_by_plain() {
    sed -n 's/^\([0-9][0-9]*\) .*/\1/p' "$work/printed" >"$work/order"
    status=0
    "$smtsim" plain "$here/$program.elf" "$work/order" --config "$work/config.toml" --records >"$work/plain" || status=$?
    echo "status $status" >>"$work/plain"
    sed '/^events /d; /^lent /d' "$work/printed" | cmp -s - "$work/plain"
}

# told NAME: the number behind this word in the report.
told() {
    sed -n "s/^$1 //p" "$work/printed"
}

# complain TEXT: tells of a run that isn't as it should be.
complain() {
    echo "$program on $harts harts $1: $(grep '^hart ' "$work/printed" | paste -s -d , -)" >&2
    agree=1
}

# runs_of PROGRAM HARTS: makes its runs, and prints a line of the table for each outcome: how often it came, and the least and the most events
# of its runs.
runs_of() {
    program=$1
    harts=$2
    : >"$work/came"
    for _ in $(seq "$times"); do
        run_once
        same_by_plain || complain "isn't as the plain machine has it"
        judge >"$work/outcomes" || complain "ends otherwise"
        sed "s/^/$(told events) /" "$work/outcomes" >>"$work/came"
    done
    sort -k 2 -k 1,1n "$work/came" | awk -v program="$program" -v harts="$harts" '
        function line() {
            if (count) printf "| `%s` | %d | %s | %d | %s |\n", program, harts, outcome, count, (least == most ? least : least " to " most)
        }
        {
            events = $1
            sub(/^[0-9]+ /, "")
            if ($0 != outcome) { line(); outcome = $0; count = 0; least = events }
            count++
            if (events + 0 < least + 0) least = events
            if (count == 1 || events + 0 > most + 0) most = events
        }
        END { line() }'
}

echo "| Program | Harts | Outcome | Times | Events |"
echo "|---|---|---|---|---|"
