#!/bin/sh
# Prints the folder that has a program, as it was built last, with its object file: the program that prints its commit, or without git the one
# that doesn't. Builds the program that prints its commit if it is missing: only the program itself is proved then.
# Usage: sh make/program_of.sh PROGRAM, at the top of the repository
program=$1
plain=crates/$program/out
named=$plain/of_commit
commit=$(sh make/commit.sh)

# Whether the program that prints its commit was built from this commit, and after the other one.
is_there() {
    [ "$(cat "$named/commit" 2> /dev/null)" = "$commit" ] && [ "$named/$program" -nt "$plain/$program" ]
}

if [ -z "$commit" ]; then
    echo "$plain"
else
    is_there || sh make/dist_libraries.sh program "$program" >&2 || exit 1
    echo "$named"
fi
