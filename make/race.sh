#!/bin/sh
# Plays the race of mdl_run_trials until a million waits are settled, where `make test` has 20,000. The tests of a copy of the crate are run in
# which only these numbers differ, with the kit's checks of memory, and without the proof, which `make test` gives.
# Usage: sh make/race.sh
cd "$(dirname "$0")/.." || exit 1
sh make/needs.sh rt python3 tar || exit 1
made=$(mktemp -d)
trap 'rm -rf "$made"' EXIT

# Gives a constant another value: FILE NAME VALUE
set_to() {
    sed -i "s/^const $2: u64 = .*;/const $2: u64 = $3;/" "$1" && grep -q "^const $2: u64 = $3;" "$1"
}

tar --exclude=out -cf - crates crates.txt HANDLES | tar -xf - -C "$made" && cd "$made/crates/mdl_run_trials" || exit 1
set_to src/shared/stress.rt SETTLED 1_000_000 && set_to src/shared/players.rt MOST_SPAN 3_600_000 || exit 1
if ! rt try --test --seconds 3700 > "$made/told" 2>&1; then
    cat "$made/told" >&2
    exit 1
fi
echo 'a million waits were settled, each once and as recorded, some in each way'
