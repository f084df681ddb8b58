#!/bin/sh
# Runs the lives of mdl_growth_trials once for each of their allocations, which is refused: they have to succeed all the same.
# The program makes the number of allocations that its argument says before its lives, and more of them after the lives, until one is refused. In each
# run the allocation with the same number is refused, so each argument makes another allocation of the lives fail. The program is built here
# without its proof, which `rt ci` gives (make/try_cases.py).
# Then mdlsim plays scripts on threads. In each run one allocation is refused, and mdlsim has to report just that, unless only a cache lacks the
# memory. How much memory a script of reads takes shows how many definitions its session keeps.
# Usage: sh growths/check.sh        each allocation, in an hour or two
#        sh growths/check.sh 37     every thirty-seventh of them
growths=$(cd "$(dirname "$0")" && pwd)
sh "$growths/../make/needs.sh" rt python3 awk || exit 1
made=$(mktemp -d)
trap 'rm -rf "$made"' EXIT
mkdir "$made/lives" "$made/plays" "$made/whole"

# The number of the allocation that a run of the lives is refused. It has to be more than the lives make.
refused=5000

# The number of the allocation that mdlsim is refused. A script of a few reads of three tables makes somewhat fewer, if its session keeps all three.
refused_on_threads=414

# How often a script reads three tables in turn. So it takes fewer allocations than that if each table is read once, and more if each is read each time.
rounds=5

# Runs the program of the current folder on each of the cases, and refuses it the allocation with this number: NUMBER CASES
play() {
    if ! python3 "$growths/../make/try_cases.py" "$1" "$2" > "$made/log" 2>&1; then
        cat "$made/log" >&2
        exit 1
    fi
}

# Adds a case: the lives after this number of allocations: NUMBER
lead() {
    : > "$made/lives/$1"
    echo "$1" > "$made/lives/$1.args"
}

# Prints what each case told, one case a line: its name, its exit status, and its lines, each with a / after it.
told() {
    awk '/^== / { lines = ""; next }
        /^allocations: / { next }
        !/^case=/ { lines = lines $0 "/"; next }
        { split($1, name, "="); match($0, / status=[0-9]+/); print name[2], substr($0, RSTART + 8, RLENGTH - 8), lines }' "$made/log"
}

# Compares what the runs of the lives told with where the refused allocation was in each of them, and prints how many were refused one inside the lives.
# The run that is refused one before the lives tells which of those it is, and the run without any before the lives how many the lives make. Of every so
# many growths of the lives one has to be refused: STRIDE
compare() {
    told | awk -v MOST="$refused" -v STRIDE="$1" '
        { lead = $1; status[lead] = $2; sub(/^[^ ]+ [^ ]+ /, ""); lines[lead] = $0 }
        END {
            if (lines[MOST] !~ "/refused before the lives: [0-9]+/$" || lines[0] !~ "/refused after the lives: [0-9]+/$") {
                print "growths/check.sh: the lives went wrong, or they make " MOST " allocations or more: " lines[0] lines[MOST] > "/dev/stderr"
                exit 1
            }
            split(lines[MOST], before, /[:\/]/)
            split(lines[0], after, /[:\/]/)
            count = before[3] - after[3]
            for (lead in lines) {
                left = before[3] - lead
                if (left <= 0) where = "refused before the lives: " (before[3] + 0)
                else if (left > count) where = "refused after the lives: " (left - count)
                else { where = "not refused before or after the lives"; inside++ }
                if (status[lead] != 0 || lines[lead] != "all went well/" where "/") {
                    print "growths/check.sh: after " lead " allocations the lives told: " lines[lead] > "/dev/stderr"
                    wrong = 1
                }
            }
            print inside " of the " count " growths of the lives were refused, one in each run, and nothing was lost"
            exit wrong || count < 1 || inside < int(count / STRIDE)
        }'
}

# Each number of allocations before the lives moves the refused one to another growth of them, or to before or after them.
cd "$growths/../crates/mdl_growth_trials" || exit 1
lead 0
lead "$refused"
for number in $(seq 1 "${1:-1}" "$((refused - 1))"); do
    lead "$((refused - number))"
done
play "$refused" "$made/lives"
compare "${1:-1}" || exit 1

# Lines that read tables that aren't there. The more they are, the earlier in a script that follows them the refused allocation comes: LINES
in_vain() {
    seq -f '1 SELECT t%.0f' "$1"
}

# Their answers: LINES
refusals() {
    seq -f '%.0f 1 ERR 1146' "$1"
}

# Adds a case of mdlsim, whose script is on standard input, with caches of this size: NAME CACHE
lay() {
    cat > "$made/plays/$1"
    printf '%s\n' run --cache "$2" > "$made/plays/$1.args"
}

# Adds the example of two threads, after this number of lines: LINES
lay_threads() {
    { in_vain "$1"; cat "$growths/../examples/two_threads.run"; } | lay "threads_$1" 64
    { refusals "$1"; awk -v LINES="$1" '$1 != "FINAL" { $1 += LINES } { print }' "$growths/../examples/two_threads.answers"; } > "$made/whole/threads_$1"
}

# Adds a script that reads three tables in turn, again and again, after this number of lines: CACHE LINES
lay_reads() {
    {
        in_vain "$2"
        for table in a b c; do echo "1 CREATE TABLE $table x y z"; done
        for round in $(seq $rounds); do
            for table in a b c; do echo "1 SELECT $table"; done
        done
    } > "$made/script"
    lay "reads_$1_$2" "$1" < "$made/script"
    {
        awk '{ rest = $2 == "SELECT" ? ($3 ~ /^t/ ? "ERR 1146" : "OK test." $3 "@1(x,y,z)") : "OK"; print NR, 1, rest }' "$made/script"
        echo 'FINAL SCHEMA test@1'
        for table in a b c; do echo "FINAL TABLE test.$table@1(x,y,z)"; done
    } > "$made/whole/reads_$1_$2"
}

# Prints how each case ended, by its name: starved, if it reported just that memory ran out; whole, if it gave all answers, because nothing was refused or
# because a cache of definitions lacked the memory, which is no fault; or wrong.
ends() {
    told | awk -v WHOLE="$made/whole" '{
        name = $1
        status = $2
        sub(/^[^ ]+ [^ ]+ /, "")
        file = WHOLE "/" name
        answers = ""
        while ((getline line < file) > 0) answers = answers line "/"
        close(file)
        starved = status == 3 && $0 == "fault: memory/"
        whole = status == 0 && $0 == answers
        print name, starved ? "starved" : whole ? "whole" : "wrong, it told " $0
    }'
}

# Says what is not as it should be.
fail() {
    cat "$made/ends" >&2
    echo "growths/check.sh: $1" >&2
    exit 1
}

# How many cases ended so, of those whose names begin with this: NAME END
number_of() {
    grep -c "^$1.* $2" "$made/ends"
}

cd "$growths/../crates/mdlsim" || exit 1
for lines in 0 $(seq 24 6 150); do
    lay_threads "$lines"
done
for lines in $(seq 0 5); do
    lay_reads 2 "$lines"
done
for lines in $(seq 0 3); do
    lay_reads 3 "$lines"
done
play $refused_on_threads "$made/plays"
ends > "$made/ends"
[ "$(number_of '' wrong)" -eq 0 ] || fail 'a run of mdlsim reports something else than that memory ran out'

# The example makes fewer than 400 allocations, however its threads interleave.
grep -q '^threads_0 whole' "$made/ends" || fail 'the example of two threads takes more memory than it may here'

# After so many lines it makes more than what it is refused. Which one that is depends on how the threads interleave, and if a cache asks for it, all
# answers come. Caches ask for few: of ten runs of each case, one in fifteen ended so.
[ $((2 * $(number_of 'threads_[1-9]' starved))) -ge "$(number_of 'threads_[1-9]' '')" ] \
    || fail 'more than half of the runs of the example of two threads after some lines take less memory than they have to here'

# A cache of three definitions keeps all three tables, so each is read once, and the memory is ample. A smaller one reads them again and again.
[ "$(number_of reads_3 starved)" -eq 0 ] || fail 'caches of three definitions keep fewer'
[ "$(number_of reads_2 starved)" -gt 0 ] || fail 'caches of two definitions keep more'
[ "$(number_of reads_2 whole)" -gt 0 ] || fail 'no run of mdlsim goes on without a cache that lacks memory'
echo "$(number_of threads starved) runs of mdlsim on threads were refused a growth and reported just that; $(number_of reads_2 starved) of $(number_of reads_2 '') ran"\
    "out of memory because a cache kept too few definitions, and the others went on without it"
