#!/bin/sh
# Prints which library crates show an example at the head of src/lib.rt that differs from the file of examples that names them, one line for each, or
# that there is none. Such a file is in src/examples of a crate of trials, or in src of a program that is an example. Also prints which code of
# docs/EMBEDDING.md isn't in the program that it is from, which `make c` builds and runs, and which answer of README.md, or of the README that `make dist`
# packs, isn't the one in its file, which `make commands` compares.
# Usage: sh make/check_examples.sh           checks the examples
#        sh make/check_examples.sh update    puts the examples there
cd "$(dirname "$0")/.." || exit 1
sh make/needs.sh awk cmp python3 || exit 1
LC_ALL=C
export LC_ALL
made=$(mktemp -d)
trap 'rm -rf "$made"' EXIT

# The library crates that show an example: those with a src/lib.rt that are no tests. mdl_steps_laws, mdl_session_laws, mdl_visits_laws and
# mdl_view_text_laws have nothing to call: their functions only state laws. mdl_c and mdl_text are called from C, as in examples/c, and with mdl_c
# the functions of mdl_c_calls and mdl_c_parts.
libraries() {
    ls crates/*/src/lib.rt | cut -d/ -f2 | grep -v -x -e '.*trials' -e 'mdl_steps_laws' -e 'mdl_session_laws' -e 'mdl_visits_laws' \
        -e 'mdl_view_text_laws' -e 'mdl_c' -e 'mdl_c_calls' -e 'mdl_c_parts' -e 'mdl_text'
}

# The file of examples that names a crate in its first line.
file_of() {
    grep -l -x "//! \`$1\`: .*" crates/*_trials/src/examples/*.rt crates/*_example/src/*.rt
}

# The section of the example in the comments at the head of a file, with all its blocks. It is the last section there.
section() {
    awk '!/^\/\/!/ { exit } $0 == "//! # Example" { on = 1 } on { print }' "$1"
}

# Prints a file with the section from standard input at the end of its head comments.
with_section() {
    cat > "$made/section"
    awk -v SECTION="$made/section" '
        $0 == "//! # Example" { cut = 1 }
        !done && /^\/\/!/ { head[++lines] = cut ? "" : $0; if (!cut) { last = lines }; next }
        !done {
            while (head[last] == "//!") { last -= 1 }
            for (i = 1; i <= last; i += 1) { print head[i] }
            print "//!"
            while ((getline line < SECTION) > 0) { print line }
            done = 1
        }
        { print }' "$1"
}

# A section, wherever its lines are broken.
words() {
    sed 's|^//! \{0,1\}||' | tr -s ' \n' ' '
}

look_at() {
    file=$(file_of "$1")
    if [ -z "$file" ]; then
        echo "crates/*_trials/src/examples, crates/*_example/src: there is no example of $1"
        return
    fi
    section "crates/$1/src/lib.rt" | words > "$made/shown"
    awk -f make/docs/example.awk "$file" | words | cmp -s - "$made/shown" \
        || echo "crates/$1/src/lib.rt: the example isn't that of $file: sh make/check_examples.sh update"
}

look() {
    for crate in $(libraries); do
        look_at "$crate"
    done
    python3 make/docs/shown.py README.md docs/EMBEDDING.md make/dist/README.md
}

update() {
    for crate in $(libraries); do
        file=$(file_of "$crate")
        if [ -n "$file" ]; then
            head="crates/$crate/src/lib.rt"
            awk -f make/docs/example.awk "$file" | with_section "$head" > "$made/page" && cat "$made/page" > "$head" || return 1
        fi
    done
}

case "$1" in
    update) "$1" || exit 1 ;;
esac
look > "$made/stale"
if [ -s "$made/stale" ]; then
    cat "$made/stale" >&2
    exit 1
fi
echo 'each library crate shows its example, and docs/EMBEDDING.md and README.md what their files have'
