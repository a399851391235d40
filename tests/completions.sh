#!/usr/bin/env bash
# Each option of a manual page is completed by bash, zsh and fish, and no other.
set -eu
. "$(dirname "$0")/common.bash"

# options_of PAGE: the letters and words of its lists of options, a line each.
options_of() {
    sed -n 's/^\.It Fl \([^ ]*\).*/\1/p' "$1" | grep -v '^Ns$' | sed 's/^\\&//; s/^/-/; s/^--$/--/' | sort -u
}

# of_bash PROGRAM: what its function answers for '-'.
of_bash() {
    bash -c '
        compopt() { :; }
        . "$1"
        COMP_WORDS=("$2" -) COMP_CWORD=1
        "_$2"
        printf "%s\n" "${COMPREPLY[@]}"
        COMP_WORDS=("$2" --) COMP_CWORD=1
        "_$2"
        printf "%s\n" "${COMPREPLY[@]}"' _ "$top/completions/bash/$1" "$1" | grep . | sort -u
}

of_zsh() {
    sed -n "s/^    '\**\(-[^[]*\)\[.*/\1/p" "$top/completions/zsh/_$1" | sort -u
}

of_fish() {
    sed -n "s/^complete -c $1 -o \([^ ]*\) .*/-\1/p; s/^complete -c $1 -l \([^ ]*\) .*/--\1/p; s/^complete -c $1 -a '\(--\)' .*/\1/p" \
        "$top/completions/fish/$1.fish" | sort -u
}

for one in procmail formail lockfile procmail-stat procmail-check procmail-explain procmail-test; do
    options_of "$top/man/$one.1" > page
    [ "$(wc -l < page)" -ge 3 ] || fail "man/$one.1 names only $(tr '\n' ' ' < page)"
    for shell in bash zsh fish; do
        "of_$shell" "$one" > completed
        cmp -s page completed || fail "$one for $shell (left: the page; right: completed): $(diff page completed)"
    done
done
for shell in bash zsh fish; do
    command -v "$shell" > /dev/null || { echo "$name: skipped the syntax for $shell, which isn't installed"; continue; }
    for file in "$top/completions/$shell"/*; do "$shell" -n "$file" || fail "$file"; done
done
echo "$name: passed"
