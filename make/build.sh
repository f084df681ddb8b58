#!/bin/sh
# Proves a program and the crates that it depends on, builds it, and runs it once with these words. It shows which crate is being proved, and how far.
# All output goes to the program's out/build.log, which is shown if the build fails. At the end it says which libraries it trusted: those that
# `make dist-libraries` packed.
# Usage: sh make/build.sh CRATE WORD..
crate=$1
shift
cd "$(dirname "$0")/../crates/$crate" && mkdir -p out || exit 1
input=/dev/null
if [ -f stdin ]; then
    input=stdin
fi

{
    rt run -- "$@" < "$input" 2>&1
    echo $? > out/build.status
} | while IFS= read -r line; do
    printf '%s\n' "$line" >&3
    case "$line" in
        'rt: chose --jobs '*) echo "proving ${line##* }" >&2 ;;
        'so far: '*' functions checked'*) echo "    ${line#so far: }" >&2 ;;
    esac
done 3> out/build.log

status=$(cat out/build.status)
if [ "$status" -ne 0 ]; then
    cat out/build.log >&2
    exit "$status"
fi

# A library that is rebuilt loses this file, so the libraries that have it were trusted.
cat ../*/out/rlib/proved_elsewhere 2> /dev/null | sort -u | while IFS= read -r version; do
    echo "trusting the libraries of $version, proved elsewhere; \`make test\` proves everything" >&2
done
