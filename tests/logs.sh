#!/usr/bin/env bash
# Log files and the ends of runs on real files: the abstract, LOG, TRAP with a program of its own, EXITCODE, DELIVERED, the
# user's own rcfile, rcfiles of the home folder, `-f`, `-a` and words that set variables.
set -eu
. "$(dirname "$0")/common.bash"

printf 'From a@b Thu Jan  1 00:00:00 1970\nSubject: hi there\n\nhi\n' > message
printf 'From a@b Thu Jan  1 00:00:00 1970\nSubject: hi there\n\nhi\n\n' > piece
home=$folder/home
mkdir "$home"
export HOME=$home LOGNAME=joe

# The user's own rcfile is run without a word, from the home folder.
printf 'LOGFILE=log\nMAILDIR=$HOME/Mail\n:0:\nmbox\n' > "$home/.procmailrc"
mkdir "$home/Mail"
"$program" < message 2> said || fail "the user's own rcfile ended with status $?"
cmp -s "$home/Mail/mbox" piece || fail "the user's own rcfile didn't deliver"
printf 'From a@b Thu Jan  1 00:00:00 1970\n Subject: hi there\n  Folder: mbox %s\n' "$(wc -c < piece)" > want
cmp -s "$home/Mail/log" want || fail "the abstract is: $(cat "$home/Mail/log")"
[ ! -s said ] || fail "the user's own rcfile told: $(cat said)"

# Two more add to the log.
"$program" < message && "$program" < message || fail "the user's own rcfile ended with status $?"
cat want want want | cmp -s - "$home/Mail/log" || fail "three abstracts are: $(cat "$home/Mail/log")"

# A name is one of the home folder; `-a` gives arguments, and words set variables.
printf ':0\n%s/box-$1-$2-$X\n' "$folder" > "$home/rc"
"$program" -a one -atwo X=3 rc < message || fail "an rcfile of the home folder ended with status $?"
cmp -s box-one-two-3 piece || fail "arguments and variables didn't come"

# `-f` names another sender.
printf ':0\n%s/sent\n' "$folder" > "$home/rc"
"$program" -f who@x rc < message || fail "another sender ended with status $?"
head -n 1 sent | grep -q '^From who@x ' || fail "the sender is: $(head -n 1 sent)"
[ "$(grep -c '^From ' sent)" -eq 1 ] || fail "there are two lines From"

# TRAP's program gets the whole mail and finds EXITCODE; its code is the status where EXITCODE is empty.
cat > trap.sh <<'SH'
cat > trapped
echo "$EXITCODE" > code
exit 3
SH
printf 'TRAP="sh trap.sh"\nDEFAULT=\nORGMAIL=\n' > rc
status=0
"$program" ./rc < message 2> said || status=$?
[ "$status" -eq 73 ] || fail "a program of TRAP ended a run with status $status"
cmp -s trapped message || fail "TRAP's program didn't get the mail"
[ "$(cat code)" = 73 ] || fail "TRAP's program found $(cat code)"
printf 'EXITCODE=\nTRAP="sh trap.sh"\n:0\nmbox\n' > rc
status=0
"$program" ./rc < message 2> said || status=$?
[ "$status" -eq 3 ] || fail "TRAP's code gave status $status"
cmp -s mbox piece || fail "the mail wasn't delivered before TRAP"

# EXITCODE and DELIVERED.
printf 'EXITCODE=67\n:0\n/dev/null\n' > rc
status=0
"$program" ./rc < message 2> said || status=$?
[ "$status" -eq 67 ] || fail "EXITCODE gave status $status"
printf 'DELIVERED=yes\nDEFAULT=\nORGMAIL=\n' > rc
"$program" ./rc < message 2> said || fail "DELIVERED gave status $?"

# Another host goes on with the next rcfile of the command line.
printf 'HOST=no-such-host\n:0\nwrong\n' > one
printf ':0\nright\n' > two
"$program" ./one ./gone ./two < message 2> said || fail "another host ended with status $?"
cmp -s right piece || fail "the next rcfile wasn't run"
[ ! -e wrong ] || fail "the rcfile of another host went on"

# A log file that can't be written to changes nothing else.
printf 'LOGFILE=/proc/no/log\n@@\n:0\nstill\n' > rc
"$program" ./rc < message 2> said || fail "a log that can't be written to ended with status $?"
cmp -s still piece || fail "the mail wasn't delivered without a log"

echo "$name: passed"
