#!/bin/sh
# Prints the commit of the sources, followed by `, changed since` if files differ from it. Prints nothing without git.
# Usage: sh make/commit.sh, at the top of the repository
commit=$(git rev-parse --short=12 HEAD 2> /dev/null) || exit 0
if [ -n "$(git status --porcelain --untracked-files=no 2> /dev/null)" ]; then
    commit="$commit, changed since"
fi
echo "$commit"
