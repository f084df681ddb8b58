#!/bin/sh
# Gives the tree another version, in all places that make/check_version.sh looks at, and checks them. A version without -dev is that of a release: the
# section [Unreleased] of CHANGELOG.md and the manual pages get it, with the date, and README.md names it. One with -dev begins a section [Unreleased].
# It commits and tags nothing.
# Usage: sh make/set_version.sh VERSION [DATE]     as 0.6.0 2026-12-01, or 0.7.0-dev. The date is today if none is given
cd "$(dirname "$0")/.." || exit 1
new=$1
date=${2:-$(date -u +%Y-%m-%d)}
old=$(cat VERSION)

if ! printf '%s\n' "$new" | grep -q -x '[0-9]*\.[0-9]*\.[0-9]*\(-dev\)\{0,1\}' || ! date -u -d "$date" > /dev/null 2>&1; then
    echo 'Usage: sh make/set_version.sh VERSION [DATE]' >&2
    exit 1
fi

# A version as the library for C has it: 600 is 0.6.0.
number() {
    echo "${1%-dev}" | awk -F . '{ print $1 * 10000 + $2 * 100 + $3 }'
}

# Replaces words of a file, wherever it has them: FILE OLD NEW
replace() {
    grep -q -F -e "$2" "$1" || { echo "$1: there is no line with $2" >&2; return 1; }
    sed -i "s|$(printf '%s' "$2" | sed 's/[].[*^$]/\\&/g')|$3|g" "$1"
}

# A program: its name is before its version.
set_program() {
    for file in "crates/$1/src/program.rt" "crates/$1/specs/CommandLine.antt" "docs/$1.1"; do
        replace "$file" "$1 $old" "$1 $new" || return 1
    done
    if [ "${new%-dev}" = "$new" ]; then
        sed -i "s/^\(\.TH [A-Z]* 1 \)[0-9-]*/\1$date/" "docs/$1.1"
    fi
}

# A file of the library for C, or of those who call it: FILE WORDS-BEFORE-THE-NUMBER
set_number() {
    replace "$1" "$2$(number "$old")" "$2$(number "$new")" && replace "$1" "$(number "$old") is ${old%-dev}" "$(number "$new") is ${new%-dev}"
}

set_log() {
    if [ "${new%-dev}" = "$new" ]; then
        replace CHANGELOG.md '## [Unreleased]' "## [$new] - $date" && sed -i "s/The newest, [0-9.]*,/The newest, $new,/" README.md
    elif ! grep -q -x -F '## [Unreleased]' CHANGELOG.md; then
        awk '/^## \[/ && !begun { print "## [Unreleased]"; print ""; begun = 1 } { print }' CHANGELOG.md > CHANGELOG.new && mv CHANGELOG.new CHANGELOG.md
    fi
}

set_program mdlsim && set_program mdlview \
    && set_number crates/mdl_c/include/gaz_codes.h 'GAZ_VERSION ' && set_number crates/mdl_c_parts/src/codes.rt 'VERSION: u32 = ' \
    && set_number crates/mdl_c_parts/specs/Codes.antt 'library_version = ' && set_number examples/rust/src/raw.rs 'VERSION: u32 = ' \
    && set_number examples/python/gaz_locks.py 'VERSION = ' && replace CITATION.cff "version: $old" "version: $new" \
    && replace examples/rust/Cargo.toml "version = \"$old\"" "version = \"$new\"" && replace examples/rust/Cargo.lock "version = \"$old\"" "version = \"$new\"" \
    && set_log && echo "$new" > VERSION || exit 1
sh make/check_version.sh || exit 1
if [ "${new%-dev}" = "$new" ]; then
    echo "next: make test, git commit, git tag v$new, make dist, make dist-check; then sh make/set_version.sh with the next version and -dev"
fi
