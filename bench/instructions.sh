#!/bin/sh
# Counts the instructions of a pair of calls, `try_fast` and `release_fast`, for a session that knows and holds little, and for one that knows
# and holds much; and the instructions and the allocations of a read from a cache of one table, and of many.
# Usage: sh bench/instructions.sh PROGRAM
# PROGRAM is mdl_bench. A count is the difference of two runs, so it leaves out what is done once. The script needs valgrind. If that is
# missing, a line says so.
program=$1
few=10000
many=110000

if ! command -v valgrind > /dev/null; then
    echo "the instructions are left out: valgrind isn't there"
    exit 0
fi
made=$(mktemp -d)
trap 'rm -rf "$made"' EXIT

# Runs a program under one of valgrind's tools: OPTION.. PROGRAM WORD..
watched() {
    valgrind "$@" 2> "$made/said" || {
        cat "$made/said" >&2
        exit 1
    }
}

# The instructions of a run: a number of turns (the second word) of what the other words say.
counted() {
    watched --tool=callgrind --callgrind-out-file="$made/counts" "$program" "$@"
    sed -n 's/^\(summary\|totals\): //p' "$made/counts" | head -n 1
}

# The allocations of a run.
allocated() {
    watched --tool=memcheck "$program" "$@"
    sed -n 's/.*total heap usage: \([0-9,]*\) allocs.*/\1/p' "$made/said" | tr -d ,
}

# Prints NAME, what is counted, the threads, what is known, held or kept with `_count` behind it, and how many a turn takes. It is called with the
# function that counts, the first words of that line, and the words of the program without the turns.
told() {
    count=$1
    line=$2
    word=$3
    shift 3
    less=$($count "$word" "$few" "$@") && more=$($count "$word" "$many" "$@") || exit 1
    tenths=$(((more - less) * 10 / (many - few)))
    echo "${line}_count $((tenths / 10)).$((tenths % 10))"
}

for stock in '1 0' '1 1' '250 0' '250 1' '250 250'; do
    known=${stock% *}
    held=${stock#* }
    told counted "a_pair instructions 1 known_${known}_held_$held" pairs "$known" "$held"
done
for kept in 1 250; do
    told counted "r_read_cached instructions 1 kept_$kept" reads "$kept"
    told allocated "r_read_cached allocations 1 kept_$kept" reads "$kept"
done
