#!/bin/sh
# The gate: proves everything from nothing and runs all tests, tries the wrong bodies with the proved libraries, checks the proved programs' answers to
# the examples and their command lines, plays 8,000 random scripts, draws 2,000, compares the answers
# to 2,000 rows of locks, refuses every thirty-seventh growth, looks for memory that isn't freed, and runs the programs of C.
# It prints how much processor time each part and the whole took, and at the end which checks this machine can't make. With GATE_STRICT=1 it fails if
# there are any.
# Usage: sh make/gate.sh, at the top of the repository.
spent=$(mktemp)
GATE_SKIPPED=$(mktemp)
export GATE_SKIPPED
trap 'rm -f "$spent" "$GATE_SKIPPED"' EXIT

# Each check has one processor. At a time there are as many checks as processors, if there are 4.5 GB for each. With more processors for one check it
# ends sooner, but takes up to two and a half times the processor time.
RT_JOBS=$(awk -v most="$(nproc)" '/^MemAvailable:/ { fit = int($2 / 4.5e6); print fit < 1 ? 1 : fit < most ? fit : most }' /proc/meminfo)
export RT_JOBS

# Sets `so_far` to the processor time of this script's children until now, in seconds: of the user, and of the system. (A subshell would not know it.)
look() {
    times > "$spent"
    so_far=$(awk 'NR == 2 { split($1, user, "[ms]"); split($2, kernel, "[ms]"); print 60 * user[1] + user[2], 60 * kernel[1] + kernel[2] }' "$spent")
}

# Runs a part of the gate, and prints what it took: NAME COMMAND WORD..
part() {
    name=$1
    shift
    look
    before=$so_far
    "$@" || { echo "make/gate.sh: $name failed" >&2; return 1; }
    look
    echo "$before $so_far" | awk -v NAME="$name" '{ printf "%s: %.0f seconds of user time, and %.0f of the system\n", NAME, $3 - $1, $4 - $2 }'
}

MDLSIM=$PWD/crates/mdlsim/out/mdlsim
export MDLSIM
part 'proofs and tests' rt ci && part 'wrong bodies' python3 make/wrong_bodies.py --gate && part examples sh examples/check.sh \
    && part 'command lines of mdlsim' python3 commands/check.py && part 'random scripts' python3 fuzz/fuzz.py --scripts 8000 --seed 1 \
    && part 'command lines of mdlview' python3 commands/check_view.py && part 'random rows' python3 fuzz/views.py --scripts 2000 --seed 1 \
    && part 'random draws' python3 fuzz/timelines.py --scripts 2000 --seed 1 && part growths sh growths/check.sh 37 && part leaks sh growths/leaks.sh \
    && part 'programs of C' sh make/c.sh
status=$?
look
echo "$so_far" | awk '{ printf "the gate took %.0f minutes of user time, and %.0f of the system\n", $1 / 60, $2 / 60 }'
sort -u "$GATE_SKIPPED"
if [ -s "$GATE_SKIPPED" ] && [ "$GATE_STRICT" = 1 ]; then
    echo 'the gate fails, since it is strict and checks were skipped' >&2
    status=1
fi
exit "$status"
