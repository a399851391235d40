#!/usr/bin/env bash
# What conditions cost, in instructions of the whole program, beside procmail 3.22 where it is installed. No proof says
# this, and the merge gate doesn't run it. Counting takes some minutes.
set -eu
cd "$(dirname "$0")/.."
[ -n "${BIN:-}" ] || [ -x bin/procmail ] || make -s build > /dev/null
program=$(cd "${BIN:-bin}" && pwd)/procmail
other=$(command -v procmail || true)
command -v valgrind > /dev/null || { echo "valgrind isn't there"; exit 0; }
folder=$(mktemp -d)
trap 'rm -rf "$folder"' EXIT
cd "$folder"
# valgrind doesn't follow a program that runs with another group's rights.
[ -z "$other" ] || { cp "$other" procmail-3.22 && other=$folder/procmail-3.22; }

# The instructions of one run of this program by the rcfile `rc` on the mail `mail`.
instructions() {
    valgrind --tool=callgrind --callgrind-out-file=/dev/null "$1" -m ./rc < mail 2>&1 > /dev/null |
        awk '/Collected/ { print $NF }'
}

# row NAME: both programs on `rc` and `mail`
row() {
    local ours theirs=-
    ours=$(instructions "$program")
    [ -z "$other" ] || theirs=$(instructions "$other")
    rm -f else
    printf '%-52s %15s %15s\n' "$1" "$ours" "$theirs"
}

# recipes COUNT CONDITION: so many recipes with a condition each, whose %s is a number, and a last one without
recipes() {
    local number
    for number in $(seq 1 "$1"); do printf ":0\n* $2\nbox\n\n" "$number"; done
    printf ':0\nelse\n'
}

# words COUNT: so many words with bars between them
words() {
    seq 1 "$1" | awk '{ printf "%s%s", (NR > 1 ? "|" : ""), "word" $1 "ing" }'
}

head_of_mail() {
    printf 'From: Ann <ann@example.net>\nTo: dev@lists.example.org\nSubject: release\n'
    for number in $(seq 1 40); do printf 'X-Header-%s: some text of a header, about fifty bytes\n' "$number"; done
    printf '\n'
}
lines() {
    yes 'The quick brown fox jumps over the lazy dog, and then it rests a while.' | head -c 1048576
    printf '\n'
}

printf '%-52s %15s %15s\n' '' 'instructions' 'of 3.22'
{ head_of_mail; echo hi; } > mail
recipes 0 '' > rc
row 'no condition, a header of 2 KiB'
recipes 200 '^Subject:.*needle%s' > rc
row '200 recipes with a header condition'
{ head_of_mail; lines; } > mail
recipes 0 '' > rc
row 'no condition, a body of 1 MiB'
recipes 20 'B ?? needle%s' > rc
row '20 conditions on a body of 1 MiB'
for count in 10 50 100; do
    recipes 1 "B ?? ($(words $count))" > rc
    row "$count words as alternatives on a body of 1 MiB"
done
recipes 1 "B ?? a$(head -c 900 /dev/zero | tr '\0' '*')b" > rc
row "900 times * on a body of 1 MiB"
recipes 1 "B ?? $(yes 'a?' | head -n 100 | tr -d '\n')[^ -~]b" > rc
row "100 times a? on a body of 1 MiB"
recipes 1 "B ?? $(yes '(' | head -n 50 | tr -d '\n')x$(yes ')*' | head -n 50 | tr -d '\n')[^ -~]b" > rc
row "50 parentheses on a body of 1 MiB"
