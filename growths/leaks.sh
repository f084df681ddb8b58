#!/bin/sh
# Runs the programs, as they were built last, under valgrind: mdl_growth_trials, whose lives make, use and end all kinds of spaces, sessions and contexts,
# mdlsim with a script of each kind, and mdlview with rows and with scripts. Each has to give its answers, and to have freed all memory when it ends.
# Usage: sh growths/leaks.sh
cd "$(dirname "$0")/.." || exit 1
if ! command -v valgrind > /dev/null; then
    sh make/skipped.sh 'that the programs free their memory' 'valgrind is missing'
    exit
fi
sh make/needs.sh diff || exit 1
made=$(mktemp -d)
trap 'rm -rf "$made"' EXIT
runs=0

# Runs a program, which reads the first file, and compares what it prints with the second one. Any block that isn't freed is an error, even if something
# still points to it: INPUT ANSWERS PROGRAM WORD..
frees_all() {
    input=$1 answers=$2 program=crates/$3/out/$3
    shift 3
    if [ ! -x "$program" ]; then
        echo "growths/leaks.sh: $program isn't there: rt ci builds it" >&2
        exit 1
    fi
    valgrind --quiet --fair-sched=try --leak-check=full --show-leak-kinds=all --errors-for-leak-kinds=all --error-exitcode=99 \
        --log-file="$made/log" "$program" "$@" < "$input" > "$made/told"
    status=$?
    if [ "$status" -ne 0 ] || [ -s "$made/log" ]; then
        cat "$made/log" >&2
        echo "growths/leaks.sh: $program $* < $input ends with status $status and these errors, or leaks" >&2
        exit 1
    fi
    if ! diff "$answers" "$made/told" >&2; then
        echo "growths/leaks.sh: $program $* < $input prints something else (<: $answers, >: what it prints)" >&2
        exit 1
    fi
    runs=$((runs + 1))
}

# Runs an example with mdlsim: NAME WORD..
plays() {
    example=examples/$1
    shift
    frees_all "$example" "${example%.*}.answers" mdlsim "$@"
}

# Asks mdlview about rows: NAME WORD.. (the first word is the ending of the answers, too)
views() {
    rows=commands/view/$1
    shift
    frees_all "$rows.rows" "$rows.$1" mdlview "$@"
}

printf 'all went well\nnot refused before or after the lives\n' > "$made/lives"
frees_all /dev/null "$made/lives" mdl_growth_trials
plays deadlock_by_order.replay replay
plays drop_schema.replay replay
plays two_threads.run run
plays two_threads.run run --cache 1
plays queue.lock lock
# commands/scripts/explain has what is explained of other lines.
crates/mdlsim/out/mdlsim explain < examples/drop_schema.replay > "$made/explained"
frees_all examples/drop_schema.replay "$made/explained" mdlsim explain
plays read_lock.scoped.lock lock --scoped
views deadlock why
views sessions waits
views quoted graph
frees_all commands/view/settled.rows commands/view/settled.locks.json mdlview locks --json
frees_all examples/alter_both_ways.replay examples/alter_both_ways.svg mdlview timeline --script
# commands/view_pages.py checks this page.
crates/mdlview/out/mdlview timeline --script --html < examples/alter_both_ways.replay > "$made/page"
frees_all examples/alter_both_ways.replay "$made/page" mdlview timeline --script --html
echo "$runs runs of the programs freed all their memory"
