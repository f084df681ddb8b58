#!/bin/sh
# Runs each example with mdlsim, and compares its answers with those in the file beside it. Does the same for the examples of two pages of docs/, and
# for the refused lines of one.
# Before that it checks whether each example says in two lines of comment what to look for and is in the list of examples/README.md, and
# whether each script that is shown there, or in the README at the top, is one of the examples, line by line and answer by answer.
# A script NAME.lock is one of an object lock, NAME.scoped.lock one of a scoped lock, NAME.replay one of statements, and NAME.run one whose
# sessions run on threads.
# The script builds mdlsim once, without its proof, which `rt ci` gives. Or MDLSIM names a program that was built before.
# Usage: sh examples/check.sh            all examples, those of the pages too
#        sh examples/check.sh SCRIPT     one of them
examples=$(cd "$(dirname "$0")" && pwd)
sh "$examples/../make/needs.sh" rt python3 awk cmp diff || exit 1
made=$(mktemp -d)
trap 'rm -rf "$made"' EXIT
mkdir "$made/cases"

# Puts a script, its words and its answers side by side, as the kit expects its cases: SCRIPT
lay() {
    name=$(basename "$1")
    case "$name" in
        *.scoped.lock) printf 'lock\n--scoped\n' ;;
        *.lock) printf 'lock\n' ;;
        *.replay) printf 'replay\n' ;;
        *.run) printf 'run\n' ;;
        *) echo "$1: a script ends with .lock, .replay or .run" >&2; return 1 ;;
    esac > "$made/cases/$name.args"
    for file in "$1" "${1%.*}.answers"; do
        if [ ! -r "$file" ]; then
            echo "$file isn't there" >&2
            return 1
        fi
    done
    cp "$1" "$made/cases/$name" && cp "${1%.*}.answers" "$made/cases/$name.stdout"
}

# Copies the scripts of a page into a folder: PAGE FOLDER
take() {
    awk -v FOLDER="$2" -f "$examples/pages.awk" "$1"
}

# An example has two lines of comment, and a line in the list.
look_at_example() {
    if [ "$(head -n 2 "$1" | grep -c '^#')" -ne 2 ]; then
        echo "$1: its first two lines don't say what to look for" >&2
        return 1
    fi
    if ! grep -qF "]($(basename "$1")) |" "$examples/README.md"; then
        echo "$1: examples/README.md doesn't list it" >&2
        return 1
    fi
}

# Whether a script, which a page shows without comments, is an example with just its answers.
is_example() {
    for example in "$examples"/*.replay; do
        if grep -v '^#' "$example" | cmp -s - "$1" && cmp -s "${example%.*}.answers" "$1.stdout"; then
            return 0
        fi
    done
    return 1
}

# A page shows only examples.
look_at_page() {
    shown=$(mktemp -d "$made/shown.XXXXXX")
    take "$1" "$shown" || return 1
    for words in "$shown"/*.args; do
        script=${words%.args}
        if [ -e "$words" ] && ! is_example "$script"; then
            echo "$1: script ${script##*.md} of the page, '$(head -n 1 "$script") ..', is no example, or has other answers" >&2
            return 1
        fi
    done
}

# Runs all cases with a program, and prints what `rt try` prints of them: the name of each, its standard error, and its status. Fails if one has
# other answers than are expected, and says which.
run_by() {
    for words in "$made/cases"/*.args; do
        case=${words%.args}
        echo "== $(basename "$case")"
        status=0
        "$1" $(cat "$words") < "$case" 2>&1 > "$made/answers" || status=$?
        if [ -e "$case.stdout" ] && ! diff "$case.stdout" "$made/answers" >&2; then
            echo "$(basename "$case") has other answers (<: those that lie beside it, >: as they are)" >&2
            return 1
        fi
        echo "case status=$status "
    done
}

# Whether each refused line of docs/LANGUAGE.md was refused as it says there, and with status 1.
refused() {
    awk '/^== / { name = $2 } /^line / { line = $0 } / status=1 / && line != "" { print name " " line; line = "" }' "$made/log" \
        | sort > "$made/told"
    sort "$made/refusals" | diff - "$made/told" >&2
}

if [ $# -eq 0 ]; then
    set -- "$examples"/*.lock "$examples"/*.replay "$examples"/*.run
    for script in "$@"; do
        look_at_example "$script" || exit 1
    done
    for page in README examples/README; do
        look_at_page "$examples/../$page.md" || exit 1
    done
    for page in LANGUAGE MYSQL; do
        take "$examples/../docs/$page.md" "$made/cases" || exit 1
    done
    awk -v FOLDER="$made/cases" -f "$examples/refusals.awk" "$examples/../docs/LANGUAGE.md" > "$made/refusals" || exit 1
fi
for script in "$@"; do
    lay "$script" || exit 1
done

if [ -n "$MDLSIM" ]; then
    run_by "$MDLSIM" > "$made/log" || exit 1
elif ! (cd "$examples/../crates/mdlsim" && rt try --seconds 900 --cases "$made/cases" > "$made/log" 2>&1); then
    cat "$made/log" >&2
    exit 1
fi
if [ -e "$made/refusals" ] && ! refused; then
    echo "docs/LANGUAGE.md: lines are refused otherwise than its table says (<: as it says, >: as they are)" >&2
    exit 1
fi
echo "each example has its answers"
