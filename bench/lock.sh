#!/bin/sh
# Times `mdlsim lock` on seeded scripts of three sizes: lines a second, and peak memory against the size of the script.
# Usage: sh bench/lock.sh PROGRAM
# It needs awk and GNU time (the Debian package time).
program=$1
folder=$(dirname "$0")
scripts=$(mktemp -d)
trap 'rm -rf "$scripts"' EXIT

sh "$folder/../make/needs.sh" awk /usr/bin/time || exit 1

# Runs a script a number of times, and prints the time of one run and the peak memory, and then for a program to read the nanoseconds per line, the
# kibibytes, and how many times the script these are: ROW, the workload, the threads, the figure's name and the figure. Its arguments: LIFE LINES TURNS
measure() {
    life=$1
    lines=$2
    turns=$3
    script="$scripts/$life.$lines.lock"
    awk -v LINES="$lines" -v SEED=7 -v WRITERS=5 -v LIFE="$life" -f "$folder/lock_scripts.awk" > "$script"
    bytes=$(wc -c < "$script")
    /usr/bin/time -f '%M' -o "$scripts/memory" "$program" lock < "$script" > "$scripts/answers"
    if grep -q REFUSED "$scripts/answers"; then
        echo "$life: a session asked for what it can't have" >&2
        exit 1
    fi
    began=$(date +%s%N)
    turn=0
    while [ "$turn" -lt "$turns" ]; do
        "$program" lock < "$script" > "$scripts/answers"
        turn=$((turn + 1))
    done
    ended=$(date +%s%N)
    awk -v life="$life" -v lines="$lines" -v bytes="$bytes" -v spent="$((ended - began))" -v turns="$turns" \
        -v memory="$(cat "$scripts/memory")" 'BEGIN {
        seconds = spent / turns / 1e9
        printf "%-8s %9d lines  %9d bytes  %8.4f s  %9.0f lines/s  %6d KiB, %.1f times the script\n",
            life, lines, bytes, seconds, lines / seconds, memory, memory * 1024 / bytes
        printf "ROW lock_%s 1 mdlsim_line_of_%d_mean %.1f\n", life, lines, seconds / lines * 1e9
        printf "ROW lock_%s 1 mdlsim_memory_of_%d_count %d\n", life, lines, memory
        printf "ROW lock_%s 1 mdlsim_memory_by_size_of_%d_count %.1f\n", life, lines, memory * 1024 / bytes
    }'
}

# Lives of all kinds of sessions, and X that passes from session to session.
for life in mixed passing; do
    measure "$life" 10000 100
    measure "$life" 100000 20
    measure "$life" 1000000 5
done
