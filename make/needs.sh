#!/bin/sh
# Says in one line which of these programs is missing.
# Usage: sh make/needs.sh PROGRAM..
for program in "$@"; do
    if command -v "$program" > /dev/null; then
        continue
    fi
    case "$program" in
        rt) echo "rt is missing: put the folder bin of the Rattle kit on the path; without the kit, take a release (README.md)" >&2 ;;
        /usr/bin/time) echo "GNU time is missing: install the package time" >&2 ;;
        python3) echo "python3 is missing: the Rattle kit needs it" >&2 ;;
        *) echo "$program is missing: install it" >&2 ;;
    esac
    exit 1
done
