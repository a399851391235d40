#!/usr/bin/env bash
# A large mail is delivered, byte for byte, where the address space is bounded by some times its size: to mailboxes, and
# through filters of the whole mail, of its header or of its body and after captures, however many there are. No contract
# speaks of memory.
set -eu
. "$(dirname "$0")/common.bash"

size=$((20 * 1024 * 1024))
{
    printf 'From a@b Thu Jan  1 00:00:00 1970\nA: b\n\n'
    yes 'a line of sixty-four bytes with its newline, as mails have them' | head -c "$size" || true
    printf 'the end'
} > large
{
    cat large
    printf '\n\n'
} > whole

# The mail of the file $2 is in the mailbox after a run of the recipes $3, where $1 times its size is all address space.
within() {
    printf '%s' "$3" > rc
    rm -f mbox
    status=0
    bound=$((size / 1024 * $1 / 10))
    (ulimit -v "$bound" && exec "$program" -m rc) < large 2> said || status=$?
    [ "$status" -eq 0 ] || fail "$4, within $1 tenths of its size: status $status, $(cat said)"
    cmp -s mbox "$2" || fail "$4: the mailbox has other bytes"
    echo "large: $4: delivered within $1 tenths of the mail's size"
}

# The recipe $1, $2 times.
times() {
    for ((count = 0; count < $2; count++)); do
        printf '%b\n\n' "$1"
    done
}

if ! (ulimit -v 1000000) 2> /dev/null; then
    echo "large: no limit on the address space can be set here: skipped"
    exit 0
fi
last=$':0\nmbox\n'
within 22 whole "$last" "a mailbox"
within 22 whole "$(times ':0 c\nother' 3)"$'\n'"$last" "four mailboxes"
within 50 whole "$(times ':0 fw\n| cat' 6)"$'\n'"$last" "six filters that change nothing"
# The file seen has $1 lines more than the mail after its line $2, as so many filters add them.
seen() {
    head -n "$2" whole > seen
    for ((count = 0; count < $1; count++)); do
        echo 'X-Seen: yes' >> seen
    done
    tail -n "+$(($2 + 1))" whole >> seen
}

seen 6 1
within 50 seen "$(times ":0 fhw\n| sed '1aX-Seen: yes'" 6)"$'\n'"$last" "six filters of the header"
within 50 seen "$(times ":0 fw\n| sed '1aX-Seen: yes'" 6)"$'\n'"$last" "six filters that add a line"
within 50 whole "$(times ':0 cw\nX=| cat' 6)"$'\n'"$last" "six captures, each too long for its variable"
seen 3 4
within 60 seen "$(times ":0 fbw\n| sed '1aX-Seen: yes'" 3)"$'\n'"$last" "three filters of the body"
echo "large: passed"
