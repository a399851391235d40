#!/usr/bin/env bash
# Many programs at once deliver to one mailbox, each under the same lock file: all their messages stand whole. So do those
# of the others where one is killed while it holds the lock.
set -eu
. "$(dirname "$0")/common.bash"
COUNT=50
LINES=2500

# A message of about 100,000 bytes, each line of which has the message's number.
message() {
    printf 'From a@b Thu Jan  1 00:00:00 1970\nSubject: %s\n\n' "$1"
    awk -v number="$1" -v lines=$LINES 'BEGIN { for (i = 1; i <= lines; i++) printf "message %s line %d with some words\n", number, i }'
}

# Prints the numbers of the messages that stand whole in a mailbox, and each line that belongs to none of them after `torn`.
whole() {
    awk -v lines=$LINES '
        /^From a@b / { if (number != "" && next_line <= lines) print "torn", number; number = ""; next_line = 0; next }
        /^Subject: / && next_line == 0 { number = $2; next_line = 1; empty = 0; next }
        next_line == 1 && !empty && $0 == "" { empty = 1; next }
        next_line > lines && $0 == "" { print number; number = ""; next_line = 0; next }
        $1 == "message" && $2 == number && $4 == next_line { next_line++; next }
        { print "torn", $0 }' "$1"
}

for number in $(seq $COUNT); do
    message "$number" > "message$number"
done

printf 'LOCKSLEEP=1\n:0:\nmbox\n' > rc
programs=()
for number in $(seq $COUNT); do
    "$program" -m rc < "message$number" 2>> said &
    programs+=($!)
done
for one in "${programs[@]}"; do
    wait "$one" || fail "one of $COUNT programs ended with status $?: $(cat said)"
done
[ ! -e mbox.lock ] || fail "a lock file is left behind $COUNT programs"
whole mbox > found
grep -q torn found && fail "a message is torn: $(grep torn found | head -n 1)"
[ "$(sort -u found | wc -l)" -eq $COUNT ] && [ "$(wc -l < found)" -eq $COUNT ] || fail "$(wc -l < found) messages of $COUNT"
echo "locks: $COUNT programs at once: each message stands whole once"

# One is killed while it holds the lock: its message is large, so that it takes a while to write.
rm -f mbox said
printf 'LOCKSLEEP=1\nLOCKTIMEOUT=2\nSUSPEND=1\n:0:\nmbox\n' > rc
{ printf 'From c@d Thu Jan  1 00:00:00 1970\n\n'; head -c 60000000 /dev/zero | tr '\0' 'x'; printf '\n'; } > large
killed=
for try in 1 2 3 4 5 6 7 8 9 10; do
    rm -f mbox mbox.lock
    "$program" -m rc < large 2> /dev/null &
    one=$!
    until [ -s mbox ] || ! kill -0 "$one" 2> /dev/null; do :; done
    kill -KILL "$one" 2> /dev/null || true
    wait "$one" 2> /dev/null || true
    if [ -e mbox.lock ]; then
        killed=yes
        break
    fi
done
if [ -z "$killed" ]; then
    echo "locks: no program could be killed while it held the lock: skipped"
else
    left=$(wc -c < mbox)
    programs=()
    for number in $(seq 10); do
        "$program" -m rc < "message$number" 2>> said &
        programs+=($!)
    done
    for one in "${programs[@]}"; do
        wait "$one" || fail "behind a killed program one ended with status $?: $(cat said)"
    done
    [ ! -e mbox.lock ] || fail "a lock file is left behind a killed program"
    grep -q 'Forcing lock on "mbox.lock"' said || fail "no lock was forced: $(cat said)"
    tail -c +$((left + 1)) mbox > behind
    whole behind > found
    grep -q torn found && fail "behind a killed program a message is torn: $(grep torn found | head -n 1)"
    [ "$(sort -u found | wc -l)" -eq 10 ] && [ "$(wc -l < found)" -eq 10 ] || fail "behind a killed program $(wc -l < found) messages of 10"
    head -c "$left" mbox | cmp -s - <(head -c "$left" large) || fail "what the killed program had written changed"
    echo "locks: behind a killed program the lock is forced, and the other messages stand whole"
fi
echo "locks: passed"
