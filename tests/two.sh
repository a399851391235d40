#!/usr/bin/env bash
# Two programs on one rcfile, each of which is given its message only once both run: both messages stand whole, one behind
# the other.
set -eu
. "$(dirname "$0")/common.bash"

# A message of 100,000 bytes, all but its first lines of this letter.
message() {
    printf 'From a@b Thu Jan  1 00:00:00 1970\nSubject: %s\n\n' "$1"
    head -c $((100000 - 47)) /dev/zero | tr '\0' "$1"
    printf '\n'
}

printf ':0:\nmbox\n' > rc
mkfifo in1 in2
programs=()
for number in 1 2; do
    message $number > message$number
    [ "$(wc -c < message$number)" -eq 100000 ] || fail "message $number has $(wc -c < message$number) bytes"
    { cat message$number; echo; } > piece$number
    "$program" ./rc < in$number 2>> said &
    programs+=($!)
done
exec 8> in1 9> in2
cat message1 >&8
exec 8>&-
cat message2 >&9
exec 9>&-
for one in "${programs[@]}"; do
    wait "$one" || fail "one of two programs ended with status $?: $(cat said)"
done
[ ! -e mbox.lock ] || fail "a lock file is left"
cat piece1 piece2 | cmp -s - mbox || cat piece2 piece1 | cmp -s - mbox || fail "the mailbox hasn't both pieces, one behind the other"
echo "two: passed"
