#!/bin/sh
# Prints what is stale in the docs, one line for each thing, or that nothing is.
# Usage: sh make/check_docs.sh                checks the docs
#        sh make/check_docs.sh update         makes the parts of pages that are made from the tree, and the charts, and puts the right line numbers into
#                                             docs/CLAIMS.md
#        sh make/check_docs.sh words          prints how many words each page has, without those parts
cd "$(dirname "$0")/.." || exit 1
sh make/needs.sh rt python3 awk comm || exit 1
LC_ALL=C
export LC_ALL
PYTHONDONTWRITEBYTECODE=1
export PYTHONDONTWRITEBYTECODE
made=$(mktemp -d)
trap 'rm -rf "$made"' EXIT

pages=$(ls README.md CONTRIBUTING.md CHANGELOG.md docs/*.md crates/*/README.md examples/*.md 2> /dev/null)

# The most words that all pages may have together, without the parts that are made from the tree.
most_words=32000

# The most words that the page of a crate may have, except those that strangers read.
most_words_of_a_crate=140
for_strangers='mdl|mdl_c|mdl_context|mdl_lock_rows|mdl_shared|mdl_space|mdl_text|mdlsim|mdlview'

# ---- what there is

crates() {
    sed -n 's/^\([a-z][a-z_0-9]*\)[^#]*:.*/\1/p' crates.txt
}

# The crates that others depend on, and the programs: no tests, examples or timings.
library_crates() {
    crates | grep -v -e 'trials$' -e 'examples\{0,1\}$' -e '_bench$'
}

# The names in a crate's code, definitions and lemmas, outside of comments, and the names of their files: CRATE NAME.
names() {
    for crate in $(crates); do
        {
            find "crates/$crate" -maxdepth 2 -type f
            find wrong_bodies -path "*/$crate/*" -type f
            find "crates/$crate" -name out -prune -o \( -path '*/src/*' -o -path '*/include/*' -o -path '*/specs/*' -o -path '*/proofs/[A-Z]*.antt' \) \
                -type f -exec sed 's|//.*||; s|--.*||' {} +
        } | tr -cs 'A-Za-z0-9_' '\n' | sort -u | sed "s|^|$crate |"
    done
}

# The headings of a page, as links name them.
headings() {
    sed -n 's/^##* *//p' "$1" | sed 's/](\([^)]*\))//g' | tr 'A-Z' 'a-z' | tr -cd 'a-z0-9_ \n-' | tr ' ' '-'
}

# ---- what is stale

# Prints a message for each entry of a list that standard input lacks. In the message & is replaced by the entry: MESSAGE LIST
lacking() {
    sort -u > "$made/found"
    sort -u "$made/$2" | comm -23 - "$made/found" | sed "s|.*|$1|"
}

stale_crates() {
    crates > "$made/crates"
    library_crates > "$made/paged"
    ls crates | grep -v -x -F -f "$made/crates" | sed 's|.*|crates.txt: & is missing|'
    ls crates/*/README.md | cut -d/ -f2 | lacking 'crates/&/README.md is missing' paged
}

stale_links() {
    grep -o -H '](\([^)]*\)' $pages | grep -v '](http' | sed 's|:\](| |' | while read -r page link; do
        path=${link%%#*}
        target=$(dirname "$page")/$path
        [ -n "$path" ] || target=$page
        if [ ! -e "$target" ]; then
            echo "$page: there is no $path"
        elif [ "$link" != "$path" ] && ! headings "$target" | grep -q -x -F -e "${link#*#}"; then
            echo "$page: no heading of $target is ${link#*#}"
        fi
    done
}

stale_paths() {
    awk -F '\t' '$4 ~ /[*]|NAME/ { next }
        $4 ~ /^(crates|docs|examples|growths|bench|make|wrong_bodies)\// { print $1, $4 }
        $4 ~ /^(mdl_[a-z_]*|mdlsim)\// { print $1, "crates/" $4 }
        $2 != "" && $4 ~ /^(specs|src|proofs|must-fail)\// { print $1, "crates/" $2 "/" $4 }' "$made/words" \
        | while read -r where path; do
            [ -e "$path" ] || [ -e "$path.antt" ] || echo "$where: there is no $path"
        done
}

# Each file of definitions says at its head what it defines.
stale_definitions() {
    sed -n 's#^| `\(specs/.*\)` |  |$#docs/DEFINITIONS.md: \1 has no comment at its head that says what it defines#p' docs/DEFINITIONS.md
}

stale_names() {
    names > "$made/names"
    awk -F '\t' -f make/docs/names.awk "$made/names" "$made/words"
}

# Which calls may lack memory.
stale_memory() {
    python3 make/docs/memory.py
}

# The numbers, structures and functions of the headers for C are those of the definitions and the code.
stale_headers() {
    python3 make/docs/header.py
}

# docs/EMBEDDING.md says what to do about each code, and has the terms of all that is in the libraries for C.
stale_hosts() {
    python3 make/docs/hosts.py
}

# The parts of pages that are made from the tree.
stale_parts() {
    python3 make/docs/made.py check
}

# All pages together, and those of crates that only other crates use.
stale_words() {
    words > "$made/counts"
    awk -v MOST="$most_words" 'END { if ($1 > MOST) print "the pages have " $1 " words together, and may have " MOST }' "$made/counts"
    grep ' crates/' "$made/counts" | grep -v -E "/($for_strangers)/" \
        | awk -v MOST="$most_words_of_a_crate" '$1 > MOST { print $2 ": it has " $1 " words, and may have " MOST }'
}

words() {
    python3 make/docs/made.py words
}

# The charts are those of bench/figures.tsv, byte for byte, and docs/PERFORMANCE.md shows all. Its tables are parts that are made from the tree.
stale_charts() {
    python3 bench/figures.py --check
    python3 bench/charts.py --check
    python3 bench/charts.py check
}

# The syntax files for editors have the words of scripts.
stale_editors() {
    python3 make/docs/editors.py
}

# README.md: its length, and the kit that it names. CONTRIBUTING.md: its length.
stale_readme() {
    [ "$(wc -w < README.md)" -le 900 ] || echo 'README.md: more than 900 words'
    [ "$(words | sed -n 's| docs/TRUST.md||p')" -le 700 ] || echo 'docs/TRUST.md: more than 700 words'
    [ "$(wc -w < CONTRIBUTING.md)" -le 800 ] || echo 'CONTRIBUTING.md: more than 800 words'
    grep -q -F "\`$(rt version)\`" README.md || echo "README.md: the kit is $(rt version)"
}

# Each sentence of README.md has a row in docs/CLAIMS.md, each row has a sentence, and what a row names is at the line that it says.
stale_claims() {
    [ "$(wc -w < docs/CLAIMS.md)" -le 2200 ] || echo 'docs/CLAIMS.md: more than 2,200 words'
    python3 make/docs/claims.py
}

stale() {
    awk -f make/docs/words.awk $(echo "$pages" | grep -v -e 'CONTRACTS' -e 'DEFINITIONS') > "$made/words"
    stale_crates
    stale_links
    stale_paths
    stale_definitions
    stale_names
    stale_memory
    stale_headers
    stale_hosts
    stale_parts
    stale_words
    stale_charts
    stale_editors
    stale_readme
    stale_claims
}

update() {
    python3 make/docs/claims.py update > "$made/claims" # the lines of docs/CLAIMS.md
    python3 bench/charts.py update
    python3 make/docs/made.py update
}

case "$1" in
    update | words) "$1" && exit ;;
esac
stale > "$made/stale" 2>&1
if [ -s "$made/stale" ]; then
    cat "$made/stale" >&2
    exit 1
fi
echo 'the docs agree with the tree'
