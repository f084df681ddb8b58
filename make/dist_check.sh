#!/bin/sh
# Unpacks what `make dist` packed into an empty folder, and tries it there without the kit: its checksums, the files that it ought to have, the versions, the
# examples, a script that is refused, the manual pages, the completions of bash if bash is there, and three programs of C if gcc and pkg-config are there.
# Before that, if the kit is there, it packs once more, as another user might, and compares: the bytes have to be the same.
# Usage: sh make/dist_check.sh PROGRAM..
cd "$(dirname "$0")/.." || exit 1
sh make/needs.sh awk cmp tar gzip sha256sum || exit 1
version=$(cat VERSION)
commit=$(sh make/commit.sh)
name=gazmirov-$version-x86_64-linux
folder=$(mktemp -d)
trap 'rm -rf "$folder"' EXIT

fail() {
    echo "$name: $1" >&2
    exit 1
}

# What the tarball has, whatever the programs are.
files='README.md CHANGELOG.md LICENSE-MIT LICENSE-APACHE SHA256SUMS check.sh include/gaz_codes.h include/gaz_one.h include/gaz_one_all.h include/gaz_text.h
    lib/libgaz_malloc.a lib/libgaz_one.a lib/libgaz_text.a lib/pkgconfig/gaz_one.pc lib/pkgconfig/gaz_text.pc docs/EMBEDDING.md docs/LANGUAGE.md docs/MYSQL.md
    examples/README.md examples/rows/dump.rows editors/vim/syntax/mdlsim.vim editors/vscode/package.json'

# What it has of a program.
files_of() {
    echo "bin/$1 share/man/man1/$1.1 share/bash-completion/completions/$1 share/zsh/site-functions/_$1 share/fish/vendor_completions.d/$1.fish"
}

# Packs again, with other rights for new files, another time zone and a later clock.
packs_alike() {
    if ! command -v rt > /dev/null; then
        sh make/skipped.sh 'whether packing again gives the same bytes' 'rt is missing'
        return 0
    fi
    (umask 077 && TZ=Asia/Kathmandu DIST=$folder/again sh make/dist.sh "$@") > "$folder/told" 2>&1 || {
        cat "$folder/told" >&2
        return 1
    }
    cmp "dist/$name.tar.gz" "$folder/again/$name.tar.gz" >&2
}

# Whether all files have one time, and belong to nobody.
is_uniform() {
    tar --numeric-owner --full-time -tvzf "dist/$name.tar.gz" | awk '
        !seen[$4 " " $5]++ { times += 1 }
        $2 != "0/0" { owned = 1 }
        END { exit owned || times != 1 }'
}

# Runs a program of the tarball, or one of the system, without the kit and with nothing else in its environment.
alone() {
    env -i PATH=/usr/bin:/bin "$@"
}

refuses_a_script() {
    printf '1 BEGIN\n0 BEGIN\n' | alone bin/mdlsim replay > "$folder/written" 2> "$folder/told"
    [ $? -eq 1 ] && [ ! -s "$folder/written" ] && [ "$(cat "$folder/told")" = 'line 2: BadSession' ]
}

renders() {
    command -v man > /dev/null || return 0
    alone MANWIDTH=80 man --warnings -l "share/man/man1/$1.1" > "$folder/page" 2> "$folder/told"
    [ $? -eq 0 ] && [ ! -s "$folder/told" ] && grep -q "$1 $version" "$folder/page"
}

completes() {
    command -v bash > /dev/null || return 0
    [ "$(alone bash -c '. share/bash-completion/completions/mdlsim; COMP_WORDS=(mdlsim run --p); COMP_CWORD=2; _mdlsim; echo "${COMPREPLY[@]}"')" = --patience ]
}

# Builds a program of C with the options that pkg-config prints, runs it, and compares its answers: NAME LIBRARY
builds() {
    command -v gcc > /dev/null && command -v pkg-config > /dev/null || return 0
    words=$(alone PKG_CONFIG_PATH=lib/pkgconfig pkg-config --cflags --libs "$2") || return 1
    alone gcc -std=c11 -o "$folder/$1" "examples/c/$1.c" $words && alone "$folder/$1" > "$folder/written" && cmp -s "$folder/written" "examples/c/$1.answers"
}

[ -e "dist/$name.tar.gz" ] || fail "dist/$name.tar.gz isn't there: make dist"
(cd dist && sha256sum -c --quiet "$name.tar.gz.sha256") || fail 'the checksum beside it is another one'
packs_alike "$@" || fail 'packing again gives other bytes: make dist'
is_uniform || fail "its files have several times, or an owner"
tar -C "$folder" -xzf "dist/$name.tar.gz" && cd "$folder/$name" || fail "it can't be unpacked"
for file in $files $(for program in "$@"; do files_of "$program"; done); do
    [ -s "$file" ] || fail "it has no $file"
done
alone sh check.sh || exit 1
for program in "$@"; do
    [ "$(alone "bin/$program" --version)" = "$program $version${commit:+ ($commit)}" ] || fail "$program --version doesn't print $version and $commit"
    renders "$program" || fail "man has complaints of share/man/man1/$program.1"
done
refuses_a_script || fail 'a script with a session 0 is not refused as it ought to be'
completes || fail "bash doesn't complete mdlsim run --p"
builds first gaz_one || fail 'examples/c/first.c has other answers'
builds one_thread gaz_one || fail 'examples/c/one_thread.c has other answers'
builds text gaz_text || fail 'examples/c/text.c has other answers'
echo "$name: it works where it is unpacked"
