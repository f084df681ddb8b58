#!/bin/sh
# Copies the libraries for C, as they were built last, into a folder such as /usr/local: the archives, the headers, and files for pkg-config.
# These say that the libraries are in PREFIX, which is the folder itself unless another one is named.
# Usage: sh make/lay_out_c.sh FOLDER [PREFIX], at the top of the repository
mkdir -p "$1/lib/pkgconfig" "$1/include" || exit 1
folder=$(cd "$1" && pwd)
prefix=${2:-$folder}
version=$(cat VERSION)
kit=$(dirname "$(dirname "$(readlink -f "$(command -v rt)")")")

# Copies one file: FILE TO
put() {
    cp "$1" "$2" && chmod 644 "$2"
}

# The archive of a crate, by the name that programs link, and its headers: CRATE NAME
put_library() {
    put "crates/$1/out/lib$1.a" "$folder/lib/lib$2.a" || return 1
    for header in crates/"$1"/include/*.h; do
        put "$header" "$folder/include/$(basename "$header")" || return 1
    done
}

# The archive of the three memory functions, which call the C library's. A program that has its own leaves this archive out.
put_memory() {
    put "$kit/c/liblibc_c.a" "$folder/lib/libgaz_malloc.a"
}

put_page() {
    sed "s|@PREFIX@|$prefix|; s|@VERSION@|$version|" "make/dist/$1.pc" > "$folder/lib/pkgconfig/$1.pc" && chmod 644 "$folder/lib/pkgconfig/$1.pc"
}

put_library mdl_c gaz_one && put_library mdl_text gaz_text && put_memory && put_page gaz_one && put_page gaz_text || exit 1
