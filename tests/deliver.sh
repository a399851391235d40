#!/usr/bin/env bash
# Deliveries by the built program on real files: a mailbox gets each message whole, and a message of 1 MB does too. Mails with
# other ends, with lines that are escaped and under other flags are the bytes that sed makes of them.
set -eu
. "$(dirname "$0")/common.bash"

printf ':0\nmbox\n' > rc
printf 'old\n' > mbox
printf 'From a@b Thu Jan  1 00:00:00 1970\nA: b\n\nhi\n' > message
printf 'From a@b Thu Jan  1 00:00:00 1970\nA: b\n\nhi\n\n' > piece

"$program" ./rc < message || fail "the first delivery ended with status $?"
cat piece > one
printf 'old\n' | cat - one > want
cmp -s mbox want || fail "the mailbox isn't the old one and the message"

"$program" ./rc < message || fail "the second delivery ended with status $?"
printf 'old\n' | cat - one one > want
cmp -s mbox want || fail "the mailbox isn't the old one and two messages"

rm mbox
"$program" -m rc < message || fail "the delivery of a filter ended with status $?"
cmp -s mbox piece || fail "the new mailbox isn't the message"
[ "$(ls -l mbox | cut -c1-10)" = "-rw-------" ] || fail "the new mailbox isn't its owner's only: $(ls -l mbox)"

rm mbox
{ printf 'From a@b Thu Jan  1 00:00:00 1970\nA: b\n\n'; head -c 1048576 /dev/zero | tr '\0' 'x'; printf '\n'; } > large
"$program" ./rc < large || fail "the delivery of 1 MB ended with status $?"
{ cat large; printf '\n'; } > want
cmp -s mbox want || fail "the mailbox isn't the message of 1 MB"

# A mail with and without lines that begin with `From `, and with up to three newlines at its end, goes to several mailboxes
# and under the flag r. What they get is made by sed.
printf ':0 c\nbox1\n\n:0 r c\nbox2\n\n:0 c\nbox3 box4\n\n:0 h c\nbox5\n\n:0 b c\nbox6\n\n:0\nbox1\n' > rc
head='From a@b Thu Jan  1 00:00:00 1970\nA: b\n\n'
for body in '' 'hi' 'From me' 'hi\n From me\n>From me' 'hi\nFrom me\nhi'; do
    for end in '' '\n' '\n\n' '\n\n\n'; do
        printf "$head$body$end" > message
        printf "$body$end" | sed 's/^From />&/' > escaped
        { printf "$head"; cat escaped; } > raw
        # A head ends with an empty line, and so does a mail without a body.
        more=''
        case $body$end in
            '' | *'\n\n') ;;
            *'\n') [ -z "$body" ] || more='\n' ;;
            *) more='\n\n' ;;
        esac
        { cat raw; printf "$more"; } > whole
        [ "$body$end" != '\n' ] || more='\n'
        { cat escaped; printf "$more"; } > behind
        rm -f box*
        "$program" -m ./rc < message || fail "a mail of the body '$body$end' ended with status $?"
        cat whole whole | cmp -s - box1 || fail "the mailbox isn't the mail of the body '$body$end' twice"
        cmp -s box2 raw || fail "the flag r changes the mail of the body '$body$end'"
        cmp -s box3 whole && cmp -s box4 whole || fail "two mailboxes at once didn't get the mail of the body '$body$end'"
        printf "$head" | cmp -s - box5 || fail "the head alone isn't that of the body '$body$end'"
        cmp -s box6 behind || [ -z "$body$end" ] || fail "the body alone isn't '$body$end'"
    done
done

status=0
"$program" -m gone < message 2> said || status=$?
[ "$status" -eq 66 ] || fail "a missing rcfile gave status $status"
[ "$(cat said)" = "procmail: No rcfile" ] || fail "a missing rcfile said: $(cat said)"

status=0
"$program" -f < message 2> said || status=$?
[ "$status" -eq 64 ] || fail "a missing sender gave status $status"
[ "$(cat said)" = "procmail: Bad words" ] || fail "a missing sender said: $(cat said)"
echo "deliver: passed"
