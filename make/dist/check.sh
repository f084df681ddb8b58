#!/bin/sh
# Checks this folder: each file against SHA256SUMS, and what mdlsim prints for each example, and mdlview for the rows of each server, against the answers
# beside them.
# Usage: sh check.sh
cd "$(dirname "$0")" || exit 1
sha256sum -c --quiet SHA256SUMS || exit 1

words_of() {
    case "$1" in
        *.scoped.lock) echo lock --scoped ;;
        *.lock) echo lock ;;
        *.replay) echo replay ;;
        *.run) echo run ;;
    esac
}

count=0
for script in examples/*.lock examples/*.replay examples/*.run; do
    if ! bin/mdlsim $(words_of "$script") < "$script" | cmp - "${script%.*}.answers"; then
        echo "$script: mdlsim prints other answers" >&2
        exit 1
    fi
    count=$((count + 1))
done
for rows in examples/rows/*.rows; do
    if ! bin/mdlview < "$rows" | cmp - "${rows%.rows}.why"; then
        echo "$rows: mdlview prints another answer" >&2
        exit 1
    fi
    count=$((count + 1))
done
echo "the checksums are right, and the $count examples have their answers"
