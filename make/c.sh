#!/bin/sh
# Builds and proves the libraries for C, lays them out as `make install` does, and builds and runs the programs that use them: those of examples/c,
# examples/cpp, examples/rust, examples/python and examples/go. It compares what they print with the answers beside them. What it has to leave out, for
# want of a compiler, it says as make/skipped.sh does.
# Usage: sh make/c.sh
cd "$(dirname "$0")/.." || exit 1
if ! command -v gcc > /dev/null; then
    sh make/skipped.sh 'the programs over the libraries for C' 'gcc is missing'
    exit
fi
sh make/needs.sh rt python3 diff || exit 1
made=$(mktemp -d)
trap 'rm -rf "$made"' EXIT

# Runs a program, and compares what it prints with the answers that belong to it: ANSWERS WORD..
compare() {
    answers=$1
    shift
    if ! timeout 300 "$@" > "$made/answers"; then
        echo "$answers: its program failed" >&2
        return 1
    fi
    if ! diff "$answers" "$made/answers" >&2; then
        echo "$answers: its program prints something else (<: the answers, >: what it prints)" >&2
        return 1
    fi
}

# The compiler options that find the libraries: from pkg-config, or, if that is missing, those that it would print.
words_for_c() {
    if command -v pkg-config > /dev/null; then
        PKG_CONFIG_PATH=$made/lib/pkgconfig pkg-config --cflags --libs gaz_one gaz_text
    else
        sh make/skipped.sh 'the files for pkg-config' 'pkg-config is missing'
        echo "-I$made/include -L$made/lib -lgaz_one -lgaz_text -lgaz_malloc"
    fi
}

# A file that includes our headers and the server's, the server's first or last, and uses names of both: ORDER
both_headers() {
    ours='#include "gaz_one_all.h"
#include "gaz_text.h"'
    if [ "$1" = first ]; then
        printf '#include "mdl.h"\n%s\n' "$ours"
    else
        printf '%s\n#include "mdl.h"\n' "$ours"
    fi
    echo 'struct uses { struct gaz_one_space space; struct gaz_lock lock; struct MDL_lock theirs; struct MDL_ticket ticket; };'
    echo 'int uses(void); int uses(void) { return GAZ_STATEMENT + MDL_STATEMENT + GAZ_GRANTED + GAZ_TEXT_DONE + (int)sizeof(struct uses); }'
}

# Checks that a compiler takes our headers beside the server's: ORDER COMPILER WORD..
read_beside() {
    order=$1
    shift
    both_headers "$order" | "$@" -Wall -Wextra -Werror -fsyntax-only -I "$made/include" -I make/server_names - \
        || { echo "$1: our headers and the server's, the server's $order, aren't taken" >&2; return 1; }
}

# Checks that a C program may include our headers and the server's, and a C++ program, too, if there is a compiler for that.
read_headers() {
    read_beside first gcc -x c -std=c11 && read_beside last gcc -x c -std=c11 || return 1
    if ! command -v g++ > /dev/null; then
        sh make/skipped.sh 'the headers for C as C++' 'g++ is missing'
        return
    fi
    read_beside first g++ -x c++ -std=c++17 && read_beside last g++ -x c++ -std=c++17
}

try_c() {
    for program in examples/c/*.c; do
        name=$(basename "$program" .c)
        gcc -std=c11 -D_POSIX_C_SOURCE=200809L -Wall -Wextra -Werror -O2 -pthread "$program" $words -o "$made/$name" \
            && compare "examples/c/$name.answers" "$made/$name" || return 1
    done
}

try_cpp() {
    if ! command -v g++ > /dev/null; then
        sh make/skipped.sh 'the program of examples/cpp' 'g++ is missing'
        return
    fi
    g++ -std=c++17 -Wall -Wextra -Wpedantic -Werror -O2 -pthread examples/cpp/transactions.cpp $words -o "$made/cpp" \
        && compare examples/cpp/transactions.answers "$made/cpp"
}

try_rust() {
    if ! command -v cargo > /dev/null; then
        sh make/skipped.sh 'the programs of examples/rust' 'cargo is missing'
        return
    fi
    for name in threads transactions; do
        compare "examples/rust/$name.answers" env GAZ_LIB="$made/lib" CARGO_TARGET_DIR="$made/cargo" \
            cargo run --offline --locked --quiet --release --manifest-path examples/rust/Cargo.toml --example "$name" || return 1
    done
}

try_python() {
    gcc -shared -o "$made/libgaz_one.so" -Wl,--whole-archive "$made/lib/libgaz_one.a" -Wl,--no-whole-archive "$made/lib/libgaz_malloc.a" || return 1
    for name in waits transactions; do
        compare "examples/python/$name.answers" env PYTHONDONTWRITEBYTECODE=1 python3 "examples/python/$name.py" "$made/libgaz_one.so" || return 1
    done
}

# Runs go in examples/go, with the libraries. It keeps nothing outside, and fetches nothing: WORD..
run_go() {
    (cd examples/go && env CGO_CFLAGS="-I$made/include" CGO_LDFLAGS="-L$made/lib" GOCACHE="$made/go" GOPATH="$made/gopath" GOPROXY=off GOTOOLCHAIN=local \
        go "$@")
}

try_go() {
    if ! command -v go > /dev/null; then
        sh make/skipped.sh 'the program of examples/go' 'go is missing'
        return
    fi
    run_go vet ./... && run_go build -o "$made/of_go" ./transactions && compare examples/go/transactions.answers "$made/of_go"
}

python3 make/archive.py && sh make/lay_out_c.sh "$made" && words=$(words_for_c) && read_headers && try_c && try_cpp && try_rust && try_python && try_go || exit 1
echo 'each program that was tried over the libraries for C has its answers'
