#!/bin/sh
# Packs the proved libraries that programs depend on, as they were built last, for checkouts of the same commit on other machines with the same kit:
# dist/gazmirov-VERSION-libraries.tar.gz, and its checksum beside it. Unpacked at the top of a checkout, they spare `make run` their proofs.
# Each is the folder out/rlib of its crate: the library, and its stamp, by which `rt` recognizes it as built from these sources. `rt ci` writes
# no stamps, so this script writes them. The file `proved_elsewhere` beside a stamp makes make/build.sh say that the library is trusted.
# Usage: sh make/dist_libraries.sh pack PROGRAM..
#        sh make/dist_libraries.sh check PROGRAM..     unpacks them in a new clone, and builds the programs there
#        sh make/dist_libraries.sh program PROGRAM..    builds the programs in a clone, with the commit in what `--version` prints. They and their
#                                                      object files go to out/of_commit of their crates
cd "$(dirname "$0")/.." || exit 1
sh make/needs.sh rt python3 git tar gzip sha256sum || exit 1
LC_ALL=C
export LC_ALL
version=$(cat VERSION)
name=gazmirov-$version-libraries
made=$(mktemp -d)
trap 'rm -rf "$made"' EXIT

# Checks that a crate's library exists, and is built from these sources: by its stamp, or, if it has none, by its age: CRATE STAMP
look_at() {
    library=crates/$1/out/rlib
    if [ ! -d "$library/$1.rlib" ]; then
        echo "$library/$1.rlib isn't there: make build, or make test" >&2
        return 1
    fi
    if [ -e "$library/stamp" ]; then
        newer=$([ "$(cat "$library/stamp")" = "$2" ] || echo "another version of crates/$1, or of a crate below it,")
    else
        newer=$(find "crates/$1/src" "crates/$1/specs" "crates/$1/proofs" -type f -newer "$library/$1.rlib" 2> /dev/null | head -n 1)
    fi
    if [ -n "$newer" ]; then
        echo "$newer is newer than $library: make build, or make test" >&2
        return 1
    fi
}

# Copies a library, and writes its stamp and the version that proved it. A library that was proved elsewhere keeps that version: CRATE STAMP
lay() {
    to=$made/crates/$1/out/rlib
    mkdir -p "$to" && cp -r "crates/$1/out/rlib/$1.rlib" "$to" && printf '%s' "$2" > "$to/stamp" || return 1
    cp "crates/$1/out/rlib/proved_elsewhere" "$to" 2> /dev/null || echo "$version, commit $(sh make/commit.sh), $(rt version)" > "$to/proved_elsewhere"
}

lay_all() {
    python3 make/stamps.py "$@" > "$made/stamps" || return 1
    while read -r crate stamp; do
        look_at "$crate" "$stamp" && lay "$crate" "$stamp" || return 1
    done < "$made/stamps"
}

pack() {
    lay_all "$@" && mkdir -p dist || return 1
    tar -C "$made" --sort=name --mtime="@$(git log -1 --format=%ct)" --owner=0 --group=0 --numeric-owner --mode=u+rw,go+r-w,a+X -cf - crates \
        | gzip -n > "dist/$name.tar.gz" && (cd dist && sha256sum "$name.tar.gz" > "$name.tar.gz.sha256") || return 1
    echo "dist/$name.tar.gz: unpack it at the top of a checkout of commit $(sh make/commit.sh), for $(rt version)"
}

# Whether each library in this clone has the stamp that its sources require.
are_of_these_sources() {
    python3 make/stamps.py "$@" > "$made/stamps" || return 1
    while read -r crate stamp; do
        if [ "$(cat "crates/$crate/out/rlib/stamp")" != "$stamp" ]; then
            echo "crates/$crate: the library that was packed is of other sources than the commit" >&2
            return 1
        fi
    done < "$made/stamps"
}

# Makes a clone and goes there.
clone() {
    git clone -q --shared . "$made/clone" && cd "$made/clone"
}

build() {
    sh make/build.sh "$1" $(cat "crates/$1/args" 2> /dev/null) 2> "$made/told"
    status=$?
    cat "$made/told"
    return "$status"
}

# Appends the commit to the version that a program prints, in its code and in the definition that its contract cites.
name_commit() {
    sed -i "s/\"$1 $version/& ($2)/" "crates/$1/src/program.rt" "crates/$1/specs/CommandLine.antt"
}

# Builds programs in a clone, with the changes since the commit applied.
program() {
    here=$PWD
    commit=$(sh make/commit.sh)
    lay_all "$@" && git diff --binary HEAD > "$made/changes" && clone && cp -r "$made/crates" . || return 1
    if [ -s "$made/changes" ]; then
        git apply "$made/changes" || return 1
    fi
    are_of_these_sources "$@" || return 1
    for program in "$@"; do
        to=$here/crates/$program/out/of_commit
        rm -rf "$to"
        name_commit "$program" "$commit" && build "$program" && mkdir -p "$to" && cp "crates/$program/out/$program" "crates/$program/out/$program.o" "$to" \
            && echo "$commit" > "$to/commit" || return 1
    done
}

# Builds programs in a clone with the packed libraries. Only the programs themselves may be proved there.
check() {
    packed=$PWD/dist/$name.tar.gz
    [ -e "$packed" ] || { echo "dist/$name.tar.gz isn't there: make dist-libraries" >&2; return 1; }
    clone && tar -xzf "$packed" && are_of_these_sources "$@" || return 1
    for program in "$@"; do
        build "$program" || return 1
        if grep '^proving ' "$made/told" | grep -v -x "proving $program" || ! grep -q '^trusting the libraries of ' "$made/told"; then
            echo "$name: more than $program is proved, or it isn't said what is trusted" >&2
            return 1
        fi
    done
    echo "$name: with them only $* is proved"
}

case "$1" in
    pack | check | program) "$@" || exit 1 ;;
    *) echo 'Usage: sh make/dist_libraries.sh pack|check|program PROGRAM..' >&2; exit 1 ;;
esac
