#!/usr/bin/env bash
# Rcfiles that name others, run by the built program on real files: one that includes ten by a variable's name, one that
# includes itself, and a chain of them in which each takes the place of the one before.
set -eu
. "$(dirname "$0")/common.bash"

printf 'From a@b Thu Jan  1 00:00:00 1970\nA: b\n\nhi\n' > message
printf 'From a@b Thu Jan  1 00:00:00 1970\nA: b\n\nhi\n\n' > piece

# Ten are included, each of which delivers a copy and adds to a variable; what is left comes behind them.
printf 'RULES=rules\n' > rc
mkdir rules
for number in 1 2 3 4 5 6 7 8 9 10; do
    printf 'INCLUDERC=$RULES/%s\n' "$number" >> rc
    printf ':0 c\ncopy-%s\nDONE=$DONE.%s\n' "$number" "$number" > "rules/$number"
done
printf ':0\nlast$DONE\n' >> rc
"$program" ./rc < message 2> said || fail "ten rcfiles ended with status $?"
for number in 1 2 3 4 5 6 7 8 9 10; do
    cmp -s "copy-$number" piece || fail "copy $number isn't the message"
done
cmp -s last.1.2.3.4.5.6.7.8.9.10 piece || fail "the last mailbox isn't the message"
[ ! -s said ] || fail "ten rcfiles told: $(cat said)"
rm copy-* last*

# One that isn't there, and a folder, are told, and what is left comes.
printf 'INCLUDERC=gone\nINCLUDERC=rules\n:0\nmbox\n' > rc
"$program" ./rc < message 2> said || fail "an rcfile that isn't there ended with status $?"
cmp -s mbox piece || fail "what is left didn't deliver"
printf 'procmail: Couldn'"'"'t read "%s"\n' gone rules | cmp -s - said || fail "it was told as: $(cat said)"
rm mbox

# One that includes itself is opened 256 times.
printf ':0 c\ncopies\nDEFAULT=mbox\nINCLUDERC=rc\n' > rc
"$program" ./rc < message 2> said || fail "an rcfile that includes itself ended with status $?"
[ "$(grep -c '^From ' copies)" -eq 256 ] || fail "it was opened $(grep -c '^From ' copies) times"
[ "$(cat said)" = 'procmail: Too many rcfiles, skipped "rc"' ] || fail "the limit was told as: $(cat said)"
cmp -s mbox piece || fail "the default mailbox isn't the message"
rm copies mbox

# A chain of a hundred, each in a locked block of the one before.
for number in $(seq 1 100); do
    printf ':0: lock-%s\n{\n    SWITCHRC=%s\n}\n:0\nwrong\n' "$number" "$((number + 1))" > "$number"
done
printf ':0 c\ncopy\n\nSWITCHRC\n:0\nwrong\n' > 101
printf 'SWITCHRC=1\n:0\nwrong\n' > two
printf 'INCLUDERC=two\n:0\nmbox\n' > rc
"$program" ./rc < message 2> said || fail "a chain of rcfiles ended with status $?"
cmp -s copy piece || fail "the end of the chain didn't deliver"
cmp -s mbox piece || fail "the rcfile behind the chain didn't deliver"
[ ! -e wrong ] || fail "an rcfile that was left went on"
[ ! -s said ] || fail "a chain of rcfiles told: $(cat said)"
[ -z "$(ls | grep lock || true)" ] || fail "locks are left: $(ls | grep lock)"

echo "rcfiles: passed"
