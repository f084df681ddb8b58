#!/bin/sh
# Times what calls are compared with: a model of the server's own design, the C library's readers-writer lock, Rust's, and bare atomic steps. Also times
# calls through the C interface beside plain mutexes, and mdl_bench if it is built, so that all are of one run.
# Usage: sh bench/peers.sh [MDLSIM]
# With MDLSIM, the program mdlsim, it also times scripts (bench/lock.sh and bench/replay.sh), and mdlview if it is built (bench/mdlview.py), and counts
# the instructions of mdl_bench (bench/instructions.sh).
# It builds the drivers of bench/peers into bench/peers/out, with gcc and rustc. If one of these is missing, a line says what is left out. The library
# for C is the one that was built last. If there is none, it is proved and built.
#
# All figures of the run are also put into bench/peers/out/rows.txt: ROW, the workload, the threads, the name, and the nanoseconds, parted by a space. A
# name is who was timed, what a turn is, and `least` or `median` of some rounds, `mean`, or `count`, where the figure is a number of instructions,
# allocations, bytes or kibibytes. Take `least` for one thread and `median` for several, and compare only rows of one file, as another run may meet a
# busier machine. Beside it is put what is made of it: ratios.txt compares the calls of mdl_bench with the model's, goals.txt says which goals are met,
# figures.tsv has the figures for the tables of docs/PERFORMANCE.md, with the machine (or what MACHINE calls it), the day and the version, and charts/ a
# chart of each of these tables. All can be made again, also of a file that was kept:
#     python3 bench/ratios.py FILE
#     python3 bench/goals.py FILE
#     python3 bench/figures.py run FILE > FIGURES
#     python3 bench/charts.py draw FIGURES FOLDER
# To put the figures of a run on the page: python3 bench/figures.py take FIGURES
program=${1:+$(readlink -f "$1")}
cd "$(dirname "$0")/peers" && mkdir -p out || exit 1
rows=out/rows.txt
ours=../../crates/mdl_bench/out/mdl_bench
view=../../crates/mdlview/out/mdlview
: > "$rows"

# Whether a compiler is there. If it isn't, prints what is left out: COMPILER WHAT
has() {
    if "$1" --version > /dev/null 2>&1; then
        return 0
    fi
    echo "$2 is left out: $1 isn't there"
    return 1
}

# Builds a driver of C: NAME WORD..
build() {
    driver=$1
    shift
    gcc -std=c11 -D_POSIX_C_SOURCE=200809L -O2 -Wall -Wextra -Werror -pthread -o "out/$driver" "$driver.c" "$@"
}

# Prints what a program printed, and puts its rows into the file: those of a program that prints NAME OF THREADS WHAT NS, too.
keep() {
    cat out/said
    awk '$1 == "ROW" && NF == 5 { print; next }
        NF == 5 && $3 ~ /^[0-9]+$/ && $5 ~ /^[0-9.]+$/ { print "ROW", $1, $3, $2 "_" $4, $5 }' out/said >> "$rows"
}

# Runs a program with these words, and keeps what it prints.
play() {
    "$@" > out/said || exit 1
    keep
}

# Makes the figures of the run, and draws them.
draw() {
    figures=bench/peers/out/figures.tsv
    cd ../.. && python3 bench/figures.py --check && python3 bench/charts.py --check && python3 bench/figures.py run "bench/peers/$rows" > $figures \
        && python3 bench/charts.py draw $figures bench/peers/out/charts && echo "$figures, bench/peers/out/charts: the figures of this run, and their charts"
}

if [ -n "$program" ]; then
    play sh ../lock.sh "$program"
    play sh ../replay.sh "$program"
    if [ -x "$ours" ]; then
        play sh ../instructions.sh "$ours"
    fi
    if [ -x "$view" ]; then
        python3 ../mdlview.py "$view" > out/said || echo 'mdlview why takes longer than it may'
        keep
    else
        echo "mdlview is left out: it isn't built"
    fi
fi
if has gcc 'the model of the server'; then
    build model && play out/model || exit 1
fi
if [ -x "$ours" ]; then
    play "$ours"
else
    echo "mdl_bench is left out: it isn't built"
fi
if has gcc boundary; then
    archive=../../crates/mdl_c/out/libmdl_c.a
    kit=$(dirname "$(dirname "$(readlink -f "$(command -v rt)")")")
    test -e "$archive" || (cd ../.. && python3 make/archive.py mdl_c) || exit 1
    build boundary -I ../../crates/mdl_c/include "$archive" "$kit/c/liblibc_c.a" && play out/boundary || exit 1
fi
if has rustc 'rust_rwlock and bare_steps'; then
    rustc --edition 2021 -O -o out/rust_peers rust_peers.rs && play out/rust_peers || exit 1
fi
if has python3 'what is made of the rows'; then
    for table in ratios goals; do
        python3 ../$table.py --check && python3 ../$table.py "$rows" > out/$table.txt && cat out/$table.txt || exit 1
    done
    (draw) || exit 1
fi
