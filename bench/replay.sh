#!/bin/sh
# Times `mdlsim replay` on seeded scripts of statements of three sizes: lines a second, and peak memory against the size of the script.
# Usage: sh bench/replay.sh PROGRAM
# It needs awk and GNU time (the Debian package time). Its seconds are processor time, the kernel's part included, so other
# work on the machine affects them little.
program=$1
folder=$(dirname "$0")
scripts=$(mktemp -d)
trap 'rm -rf "$scripts"' EXIT

sh "$folder/../make/needs.sh" awk /usr/bin/time || exit 1

# A script of sessions that behave as sessions do, at most OPEN of them in a transaction at a time: OPEN LINES
lives() {
    awk -v LINES="$2" -v SEED=7 -v CHANGES=100 -v OPEN="$1" -f "$folder/replay_scripts.awk"
}

# One transaction with savepoints of different names: SAVEPOINTS
savepoints() {
    awk -v SAVEPOINTS="$1" 'BEGIN {
        print "1 BEGIN"
        for (i = 1; i <= SAVEPOINTS; i++) {
            print "1 SAVEPOINT s" i
        }
        print "1 COMMIT"
    }'
}

# The script of all_forms.awk: LINES
forms() {
    awk -v LINES="$1" -v SEED=7 -f "$folder/all_forms.awk"
}

# Runs the script a number of times, and prints the time of one run, the peak memory and how many of its statements wait, and then for a program to
# read the nanoseconds per line, the kibibytes, and how many times the script these are: ROW, the workload, the threads, the figure's name and the
# figure. Its arguments: WORKLOAD SIZE TURNS
measure() {
    workload=$1
    size=$2
    turns=$3
    script="$scripts/script"
    lines=$(wc -l < "$script")
    bytes=$(wc -c < "$script")
    /usr/bin/time -f '%M' -o "$scripts/memory" "$program" replay < "$script" > "$scripts/answers" || exit 1
    if grep -q ' BUSY$' "$scripts/answers" || { [ "$workload" != all_forms ] && grep -q ' ERR 1213$' "$scripts/answers"; }; then
        echo "$workload: a session that waits was asked, or came to a deadlock" >&2
        exit 1
    fi
    waits=$(grep -c ' WAIT [A-Z]' "$scripts/answers")
    /usr/bin/time -f '%U %S' -o "$scripts/seconds" sh -c '
        for turn in $(seq "$3"); do
            "$0" replay < "$1" > "$2"
        done' "$program" "$script" "$scripts/answers" "$turns"
    awk -v workload="$workload" -v size="$size" -v lines="$lines" -v bytes="$bytes" -v memory="$(cat "$scripts/memory")" -v waits="$waits" -v turns="$turns" '{
        seconds = ($1 + $2) / turns
        printf "%-9s %9d lines  %9d bytes  %8.4f s  %9.0f lines/s  %6d KiB, %.1f times the script, %4.1f waits of 100 lines\n",
            workload, lines, bytes, seconds, lines / seconds, memory, memory * 1024 / bytes, waits / lines * 100
        printf "ROW replay_%s 1 mdlsim_line_of_%d_mean %.1f\n", workload, size, seconds / lines * 1e9
        printf "ROW replay_%s 1 mdlsim_memory_of_%d_count %d\n", workload, size, memory
        printf "ROW replay_%s 1 mdlsim_memory_by_size_of_%d_count %.1f\n", workload, size, memory * 1024 / bytes
    }' "$scripts/seconds"
}

# All sessions have transactions open, or a quarter of them; and all forms of statements.
for size in 10000 100000 1000000; do
    turns=$((500000 / size + 2))
    for open in 64 16; do
        lives $open $size > "$scripts/script"
        measure ${open}_open $size $turns
    done
    forms $size > "$scripts/script"
    measure all_forms $size $turns
done

# Savepoints of one transaction.
savepoints 100000 > "$scripts/script"
measure savepoints 100000 5
