#!/bin/sh
# Prints each place where the version differs from the file VERSION, one line for each, or that there is none.
# The tree of a release has its version: the newest one of CHANGELOG.md, which has its date, as the manual pages do. A tree after it, whose CHANGELOG.md
# has a section [Unreleased], has a later version that ends with -dev. A tag vVERSION is of a tree with that version. make/set_version.sh goes from one to
# the other.
# Usage: sh make/check_version.sh
cd "$(dirname "$0")/.." || exit 1
version=$(cat VERSION)
stale=$(mktemp)
ordered=$(mktemp)
trap 'rm -f "$stale" "$ordered"' EXIT

# The releases of the change log, each as VERSION DATE, and the newest one.
releases() {
    sed -n 's/^## \[\([0-9.]*\)\] - \([0-9-]*\)$/\1 \2/p' CHANGELOG.md
}
newest=$(releases | head -n 1)
released=${newest% *}

# Reports a file that has no line with these words: FILE WORDS
has() {
    grep -q -F -e "$2" "$1" || printf '%s: there is no line with %s\n' "$1" "$2"
}

# Whether a version is later than another one: VERSION VERSION
is_later() {
    [ "$1" != "$2" ] && [ "$(printf '%s\n%s\n' "$1" "$2" | sort -t . -k 1,1n -k 2,2n -k 3,3n | tail -n 1)" = "$1" ]
}

# The version is that of the newest release, or, if something is unreleased, a later one with -dev.
wrong_version() {
    printf '%s\n' "$version" | grep -q -x '[0-9]*\.[0-9]*\.[0-9]*\(-dev\)\{0,1\}' || echo "VERSION: $version is no version"
    if ! grep -q -x -F '## [Unreleased]' CHANGELOG.md; then
        [ "$released" = "$version" ] || echo "CHANGELOG.md: the newest version is $released, nothing is unreleased, and VERSION has $version"
    elif [ "${version%-dev}" = "$version" ]; then
        echo "VERSION: $version is the version of a release, and CHANGELOG.md has a section [Unreleased]: it has to end with -dev"
    elif ! is_later "${version%-dev}" "$released"; then
        echo "VERSION: $version isn't later than $released, which is released"
    fi
}

# The releases of the change log are the newest first, by version and by date.
wrong_order() {
    releases | sort -t . -k 1,1nr -k 2,2nr -k 3,3nr > "$ordered"
    releases | cmp -s - "$ordered" || echo "CHANGELOG.md: the versions aren't the newest first"
    releases | cut -d ' ' -f 2 | sort -r -c 2> /dev/null || echo "CHANGELOG.md: a later version has an earlier date"
}

# A manual page has the version, and its date: that of the release, or, after it, any later one: PROGRAM
wrong_page() {
    name=$(echo "$1" | tr 'a-z' 'A-Z')
    date=$(sed -n "s/^\.TH $name 1 \([0-9]*-[0-9]*-[0-9]*\) \"$1 $version\" \"User Commands\"\$/\1/p" "docs/$1.1")
    if [ -z "$date" ]; then
        echo "docs/$1.1: there is no line with .TH $name 1 DATE \"$1 $version\""
    elif [ "${version%-dev}" = "$version" ] && [ "$date" != "${newest#* }" ]; then
        echo "docs/$1.1: its date is $date, and CHANGELOG.md has ${newest#* }"
    elif [ "$(printf '%s\n%s\n' "$date" "${newest#* }" | sort | head -n 1)" != "${newest#* }" ]; then
        echo "docs/$1.1: its date is $date, before ${newest#* }, when $released was released"
    fi
    has "docs/$1.1" "This page describes $1 $version."
}

# The tags of versions: each is of a tree with that version, and CHANGELOG.md has it.
wrong_tags() {
    for tag in $(git tag --list 'v[0-9]*' 2> /dev/null); do
        tagged=$(git show "$tag:VERSION" 2> /dev/null)
        [ "$tagged" = "${tag#v}" ] || echo "the tag $tag is of a tree with VERSION $tagged"
        has CHANGELOG.md "## [${tag#v}] - "
    done
}

# The version as a number, as the library for C tells it.
number=$(echo "${version%-dev}" | awk -F . '{ print $1 * 10000 + $2 * 100 + $3 }')

{
    wrong_version
    wrong_order
    wrong_tags
    for program in mdlsim mdlview; do
        wrong_page "$program"
        has "crates/$program/src/program.rt" "b\"$program $version\\n\""
        has "crates/$program/specs/CommandLine.antt" "codes \"$program $version\""
    done
    has crates/mdl_c/include/gaz_codes.h "#define GAZ_VERSION $number"
    has examples/rust/src/raw.rs "const VERSION: u32 = $number;"
    has examples/python/gaz_locks.py "VERSION = $number"
    has CITATION.cff "version: $version"
    has README.md "The newest, $released,"
    for file in Cargo.toml Cargo.lock; do
        has "examples/rust/$file" "version = \"$version\""
    done
} > "$stale"
if [ -s "$stale" ]; then
    cat "$stale" >&2
    exit 1
fi
echo "CHANGELOG.md, the manual pages, the library for C, the crate of Rust, mdlsim and mdlview have the version $version"
