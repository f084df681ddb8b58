#!/bin/sh
# Copies programs, as they were built last, with their manual pages and completions into a folder such as /usr/local. With git, the programs are
# those that print their commit (make/program_of.sh), and a manual page gets it in place of its line `.\" COMMIT`.
# Usage: sh make/lay_out.sh FOLDER PROGRAM.., at the top of the repository
folder=$1
shift
commit=$(sh make/commit.sh)

# Copies one file, and makes the folders above it: FILE TO MODE
put() {
    mkdir -p "$(dirname "$2")" && cp "$1" "$2" && chmod "$3" "$2"
}

put_page() {
    put "docs/$1.1" "$2" 644 || return 1
    if [ -n "$commit" ]; then
        sed "s|^\.\\\\\" COMMIT\$|It was built from commit $commit.|" "docs/$1.1" > "$2"
    fi
}

# Copies a completion, if there is one: NAME TO
put_completion() {
    if [ -e "commands/completions/$1" ]; then
        put "commands/completions/$1" "$2" 644
    fi
}

for program in "$@"; do
    from=$(sh make/program_of.sh "$program") && put "$from/$program" "$folder/bin/$program" 755 \
        && put_page "$program" "$folder/share/man/man1/$program.1" \
        && put_completion "$program.bash" "$folder/share/bash-completion/completions/$program" \
        && put_completion "_$program" "$folder/share/zsh/site-functions/_$program" \
        && put_completion "$program.fish" "$folder/share/fish/vendor_completions.d/$program.fish" || exit 1
done
