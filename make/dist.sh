#!/bin/sh
# Packs programs and the libraries for C, as they were built last, for machines without the kit: dist/gazmirov-VERSION-x86_64-linux.tar.gz, and its
# checksum beside it. DIST names another folder for both. What is packed has the same bytes each time: the names are in order, nobody owns the files, and
# all have the time of the commit, or SOURCE_DATE_EPOCH.
# With git, each program is built once more with the commit in what `--version` prints: make/program_of.sh. The object file of the proved build is
# linked again without shared libraries. If that can't be done, the program is packed as it is, and the README of the tarball says which C
# library it needs.
# Usage: sh make/dist.sh PROGRAM..    each the name of a crate
cd "$(dirname "$0")/.." || exit 1
sh make/needs.sh rt awk cmp tar gzip sha256sum readelf || exit 1
LC_ALL=C
export LC_ALL
unset TAR_OPTIONS GZIP
version=$(cat VERSION)
commit=$(sh make/commit.sh)
name=gazmirov-$version-x86_64-linux
dist=${DIST:-dist}
kit=$(dirname "$(readlink -f "$(command -v rt)")")/..
made=$(mktemp -d)
trap 'rm -rf "$made"' EXIT
top=$made/$name

libraries='mdl_c mdl_text'

# Checks that a file built from a crate exists, and is newer than all that it was built from: CRATE FILE
look_at() {
    built=crates/$1/out/$2
    if [ ! -e "$built" ]; then
        echo "$built isn't there: make build" >&2
        return 1
    fi
    for crate in $(awk -v CRATES="$1" -f make/crates_below.awk crates.txt); do
        newer=$(find "crates/$crate/src" "crates/$crate/specs" "crates/$crate/proofs" -type f -newer "$built" 2> /dev/null | head -n 1)
        if [ -n "$newer" ]; then
            echo "$newer is newer than $built: make build" >&2
            return 1
        fi
    done
}

# Whether the object file beside a program is the one that it was linked from: linked again in the same way, it gives the same program. FOLDER PROGRAM
has_object() {
    [ -s "$1/$2.o" ] && "$kit/bin/rattle-link" --target x86_64-unknown-linux-gnu --toolchain "$kit/toolchain" -o "$made/again" \
        "$1/$2.o" "$kit/c/libos_c.a" "$kit/c/liblibc_c.a" 2> /dev/null && cmp -s "$made/again" "$1/$2"
}

# Links a program without shared libraries, and puts beside it the files from which a user with another C library can link it again.
link_static() {
    from=$(sh make/program_of.sh "$1") && has_object "$from" "$1" || return 1
    mkdir -p "$top/relink" && cp "$from/$1.o" "$kit/c/libos_c.a" "$kit/c/liblibc_c.a" "$top/relink" || return 1
    chmod 644 "$top/relink"/*
    (cd "$top/relink" && ${CC:-cc} -static -s -o ../bin/"$1" "$1.o" libos_c.a liblibc_c.a) 2> "$made/linking"
}

# Packs a program as it was built, with shared libraries.
put_as_built() {
    echo "$1 can't be linked without shared libraries, and is packed as it was built" >&2
    cat "$made/linking" >&2 2> /dev/null
    rm -f "$top/relink/$1.o"
    cp "$(sh make/program_of.sh "$1")/$1" "$top/bin/$1"
}

# What a program needs of the machine.
needs_of() {
    if [ -n "$(readelf -d "$top/bin/$1" | grep NEEDED)" ]; then
        echo "\`$1\` needs the GNU C library $(readelf -V "$top/bin/$1" | grep -o 'GLIBC_[0-9.]*' | sort -u -V | tail -n 1 | sed 's/GLIBC_//') or later."
    else
        echo "\`$1\` needs no shared library: it is linked with the GNU C library ($(getconf GNU_LIBC_VERSION)), for Linux $(readelf -n "$top/bin/$1" | sed -n 's/.*OS: Linux, ABI: //p') or later."
    fi
}

# The libraries of the kit that the crates depend on, directly or not.
kit_libraries() {
    awk -v CRATES="$*" -v KIT=1 -f make/crates_below.awk crates.txt | sort -u > "$made/found"
    : > "$made/libraries"
    while ! cmp -s "$made/found" "$made/libraries"; do
        mv "$made/found" "$made/libraries"
        while read -r library; do
            echo "$library"
            grep -a '^dep ' "$kit/rlibs/$library.rlib/format" | sed 's/^dep //'
        done < "$made/libraries" | sort -u > "$made/found"
    done
    cat "$made/libraries"
}

# Copies the licences, and lists the libraries that have none beside them.
put_licences() {
    cp LICENSE-MIT LICENSE-APACHE "$top" && mkdir -p "$top/licences" || return 1
    for library in $(kit_libraries "$@"); do
        for file in "$kit/rattle/$library"/LICENSE*; do
            if [ -e "$file" ]; then
                mkdir -p "$top/licences/$library" && cp "$file" "$top/licences/$library" || return 1
            fi
        done
        [ -e "$top/licences/$library" ] || echo "$library" >> "$top/licences/NONE"
    done
    if [ -d "$top/relink" ] && [ -e /usr/share/common-licenses/LGPL-2.1 ]; then
        mkdir -p "$top/licences/glibc" && cp /usr/share/common-licenses/LGPL-2.1 "$top/licences/glibc" || return 1
    fi
}

# Writes the README. Its lines `@NEEDS@` and `@RELINK@` are replaced by what is known only here. It doesn't say which file of the repository its code is from.
put_readme() {
    for program in "$@"; do
        needs_of "$program"
    done > "$made/needs"
    : > "$made/relink"
    if [ -d "$top/relink" ]; then
        cp make/dist/relink.md "$made/relink"
    fi
    sed -e "s/@VERSION@/$version/; s/@COMMIT@/${commit:-unknown}/; s/@KIT@/$(rt version)/; s/^\`\`\`text .*/\`\`\`text/" -e "/^@NEEDS@\$/{
r $made/needs
d
}" -e "/^@RELINK@\$/{
r $made/relink
d
}" make/dist/README.md > "$top/README.md"
}

put_pages() {
    mkdir -p "$top/examples" "$top/docs" && cp docs/LANGUAGE.md docs/MYSQL.md docs/EMBEDDING.md "$top/docs" \
        && cp make/dist/check.sh CHANGELOG.md "$top" \
        && cp examples/*.lock examples/*.replay examples/*.run examples/*.answers examples/*.svg examples/README.md "$top/examples" \
        && cp -r examples/c examples/cpp examples/go examples/rust examples/python "$top/examples" \
        && cp -r tools/server_locks/answers "$top/examples/rows" && cp -r editors "$top" \
        && rm -rf "$top/examples/python/__pycache__" "$top/examples/rust/target"
}

# The time that all files get: the one that the environment sets, or that of the commit, or without git the day of the newest version in CHANGELOG.md.
time_of_all() {
    [ -n "$SOURCE_DATE_EPOCH" ] && echo "$SOURCE_DATE_EPOCH" || git log -1 --format=%ct 2> /dev/null || date -u -d "$(sed -n 's/^## \[[0-9.]*\] - //p' CHANGELOG.md | head -n 1)" +%s
}

for program in "$@"; do
    look_at "$program" "$program" || exit 1
done
for library in $libraries; do
    look_at "$library" "lib$library.a" || exit 1
done
sh make/lay_out.sh "$top" "$@" && sh make/lay_out_c.sh "$top" '${pcfiledir}/../..' || exit 1
for program in "$@"; do
    link_static "$program" || put_as_built "$program" || exit 1
done
if [ -z "$(find "$top/relink" -name 'mdl*.o' 2> /dev/null)" ]; then
    rm -rf "$top/relink"
fi
put_pages && put_licences "$@" $libraries && put_readme "$@" || exit 1
(cd "$top" && find . -type f ! -name SHA256SUMS | sort | xargs sha256sum > SHA256SUMS) || exit 1
mkdir -p "$dist" || exit 1
tar -C "$made" --format=ustar --sort=name --mtime="@$(time_of_all)" --owner=0 --group=0 --numeric-owner --mode=u+rw,go+r-w,a+X -cf "$made/tar" "$name" \
    && gzip -9 -n < "$made/tar" > "$dist/$name.tar.gz" && (cd "$dist" && sha256sum "$name.tar.gz" > "$name.tar.gz.sha256") || exit 1
echo "$dist/$name.tar.gz"
