#!/bin/sh
# Prints each script of statements in examples/ as a page, FOLDER/NAME.html, and FOLDER/index.html, which lists them. The pages need nothing else: any web
# server shows them, and so does a browser that opens the files.
# Usage: sh make/pages.sh MDLVIEW FOLDER     MDLVIEW is the program, which has to know `timeline --html`
cd "$(dirname "$0")/.." || exit 1
program=$1
folder=$2
made=$(mktemp -d)
trap 'rm -rf "$made"' EXIT

if [ ! -x "$program" ] || [ -d "$program" ]; then
    echo "$program isn't there: make view, or MDLVIEW=PATH" >&2
    exit 1
fi

# Words as HTML has them.
escaped() {
    sed 's/&/\&amp;/g; s/</\&lt;/g; s/>/\&gt;/g'
}

# Prints the page of a script: SCRIPT
print_page() {
    "$program" timeline --script --html < "$1" > "$made/$(basename "$1" .replay).html" 2> "$made/told"
    status=$?
    if [ "$status" -eq 2 ]; then
        echo "$program prints no pages: it doesn't know timeline --html" >&2
    elif [ "$status" -ne 0 ]; then
        echo "$1: $program refuses it" >&2
        cat "$made/told" >&2
    fi
    return "$status"
}

# The line of a script in the index: its name, and the comment at its head.
print_item() {
    name=$(basename "$1" .replay)
    printf '<li><a href="%s.html">%s</a> %s</li>\n' "$name" "$name" "$(sed -n '1,2s/^# *//p' "$1" | tr '\n' ' ' | escaped)"
}

print_index() {
    cat make/pages/head.html
    for script in examples/*.replay; do
        print_item "$script"
    done
    cat make/pages/foot.html
}

for script in examples/*.replay; do
    print_page "$script" || exit 1
done
rm -f "$made/told"
print_index > "$made/index.html" && mkdir -p "$folder" && cp "$made"/*.html "$folder" || exit 1
echo "$folder/index.html: $(ls examples/*.replay | wc -l) scripts as pages"
