#!/bin/sh
# Builds mdlsim without the proof, and prints its answers to a script. Its own lines on standard error begin with "make try:". Of what the
# kit says there, only mdlsim's own lines are shown, unless the kit itself fails: then all is shown.
# Usage: sh make/try.sh SCRIPT WORD..
script=$(cd "$(dirname "$1")" && pwd)/$(basename "$1")
shift
cd "$(dirname "$0")/../crates/mdlsim" || exit 1
told=$(mktemp)
trap 'rm -f "$told"' EXIT

say() {
    printf 'make try: %s\n' "$1" >&2
}

say 'builds mdlsim without the proof, which takes two to three minutes'
say 'answers up to 1 MB, and plays for up to 60 seconds; make run has no such limits'
rt try -- "$@" < "$script" 2> "$told"
status=$?

# The kit's last line says how the run ended.
case "$(tail -n 1 "$told")" in
    run=ended*)
        sed '/^checked: /d; /^races: /d; /^interpreter: /d; /^run=/d' "$told" >&2
        if grep -q '^line [0-9][0-9]*: [A-Z]' "$told"; then
            say 'the script is refused; docs/LANGUAGE.md, "Refused lines", says what to look for'
        fi
        ;;
    run=no-answer*) say 'no answers: they take more than 1 MB, or the script takes more than 60 seconds; use make run' ;;
    *) cat "$told" >&2 ;;
esac
exit "$status"
