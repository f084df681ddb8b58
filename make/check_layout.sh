#!/bin/sh
# Reports at once what the gate would refuse only when it reaches the crate, maybe an hour later: files that aren't laid out as `rt fmt` does it,
# and wrong bodies that don't fit the file that they change.
# Usage: sh make/check_layout.sh
cd "$(dirname "$0")/.." || exit 1
sh make/needs.sh rt python3 || exit 1
LC_ALL=C
export LC_ALL
made=$(mktemp -d)
trap 'rm -rf "$made"' EXIT
: > "$made/stale"

python3 make/wrong_bodies.py --fit 2>> "$made/stale"

# The program that `rt fmt` calls is beside `rt`. If a kit keeps it elsewhere, `rt ci` alone checks the layout.
rattle=$(dirname "$(readlink -f "$(command -v rt)")")/rattle
find crates -name out -prune -o \( -name '*.rt' -o -name '*.antt' \) -type f -print > "$made/files"
if [ -x "$rattle" ] && ! xargs "$rattle" fmt --check < "$made/files" > /dev/null 2>> "$made/stale"; then
    echo "run rt fmt in the folder of the crate" >> "$made/stale"
fi

if [ -s "$made/stale" ]; then
    cat "$made/stale" >&2
    exit 1
fi
echo "each file is in the layout, and each wrong body fits"
