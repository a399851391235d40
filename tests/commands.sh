#!/usr/bin/env bash
# Backquoted commands and programs of conditions on real files: what they get, what comes of their output and their exit
# codes, and that nothing of them is left.
set -eu
. "$(dirname "$0")/common.bash"

printf 'From a@b Thu Jan  1 00:00:00 1970\nSubject: small\n\nbody\n' > small
{ printf 'From a@b Thu Jan  1 00:00:00 1970\nSubject: large\n\n'; yes 'a line of fifty bytes, with its newline at its end' | head -n 980000; } > large

# Runs the rcfile over a message, and expects status 0. The number of the process is noted: its temporary files have it.
run() {
    local status=0
    rm -f box no yes
    sh -c 'echo $$ >> numbers; exec "$0" -m rc' "$program" < "$1" 2> said || status=$?
    [ "$status" -eq 0 ] || fail "$2: status $status: $(cat said)"
}

# A mailbox has the message and its empty line.
holds() {
    { cat "$2"; echo; } | cmp -s - "$1" || fail "$3"
}

printf 'NAME=`sed -n "s/^Subject: //p"`\n:0\n$NAME-box\n' > rc
run small 'an assignment'
holds small-box small 'the output of a command is no mailbox'
rm small-box
printf ':0:`echo the.lock`\n`ls the.lock 2> /dev/null; echo box`\n' > rc
run small 'the texts of a recipe'
holds box small 'the lock was taken before the commands of its recipe were run'
[ ! -e the.lock ] || fail 'a lock file is left'
printf 'COUNT=`wc -c`\n:0\nbox$COUNT\n' > rc
run large 'a command that gets 50 MB'
holds "box$(wc -c < large)" large 'a command got another mail'
rm box*
printf 'A=`head -c 2000000 /dev/zero | tr "\\\\0" x`\nB=`sh -c "exit 7"`\n:0\nbox$A$?\n' > rc
run small 'an output that is too long'
holds box7 small 'an output of 2,000,000 bytes is taken, or a code is lost'
rm box7
printf 'A=`no-such-program-anywhere`\n:0\nbox$A$?\n' > rc
run small 'a command that is missing'
grep -qxF "procmail: Couldn't start \"no-such-program-anywhere\"" said || fail "nothing was said of a missing command: $(cat said)"
holds box127 small 'a command that is missing has an output, or another code than 127'
rm box127
echo 'commands: assignments, mailboxes, lock files, lengths and codes'

printf ':0\n* ? grep -q "^Subject: small"\nyes\n:0\nno\n' > rc
run small 'a program that ends with 0'
holds yes small 'a condition whose program ends with 0 does not hold'
run large 'a program that ends with 1'
holds no large 'a condition whose program ends with 1 holds'
printf ':0\n* B ?? ? test "`wc -l`" -gt 1000\nyes\n:0\nno\n' > rc
run large 'a program that gets the body'
holds yes large 'a program got another body'
printf 'V="one two"\n:0\n* V ?? ? grep -qx "one two"\n* ! ? false\n* 3^0 ? true\n* -1^2 ? exit 1\nyes\n:0\nno\n' > rc
run small 'programs with an area, an inversion and weights'
holds yes small 'an area, an inversion or a weight is another'
: > rc
for number in $(seq 100); do printf ':0\n* ? exit 1\nno\n'; done > rc
printf ':0\nbox\n' >> rc
run small 'a hundred programs of conditions'
holds box small 'the mail behind a hundred conditions is another'
echo 'commands: conditions'

while read -r number; do
    for one in "/tmp/procmail.$number".*; do
        [ ! -e "$one" ] || fail "a file of an output is left: $one"
    done
done < numbers
echo 'commands: passed'
