#!/usr/bin/env bash
# Rcfiles of variables, copies and defects, run by the built program on real files.
set -eu
. "$(dirname "$0")/common.bash"

printf 'From a@b Thu Jan  1 00:00:00 1970\nA: b\n\nhi\n' > message
printf 'From a@b Thu Jan  1 00:00:00 1970\nA: b\n\nhi\n\n' > piece

# A thousand recipes: each but the last delivers a copy to a name of variables.
for number in $(seq 1 999); do
    printf 'N=%s\n:0 c\nbox-${N}\n\n' "$number"
done > rc
printf ':0\n"last $N"\n' >> rc
"$program" ./rc < message || fail "a thousand recipes ended with status $?"
[ "$(ls box-* | wc -l)" -eq 999 ] || fail "there are $(ls box-* | wc -l) copies"
for number in $(seq 1 999); do
    cmp -s "box-$number" piece || fail "copy $number isn't the message"
done
cmp -s "last 999" piece || fail "the last mailbox isn't the message"
rm box-* "last 999"

# What users keep: a folder, an archive of each mail, its head alone for the statistics, and the mailbox.
mkdir home home/Mail
cat > home/rc <<'RC'
# Where mail goes
PATH=/bin:/usr/bin
MAILDIR=$HOME/Mail      # you'd better make sure it exists
MONTH=${MONTH:-2026-11}
DEFAULT=$MAILDIR/inbox

# everything, for good
:0 c
archive.$MONTH

:0 hcr
heads

= this line is a mistake
:0
$DEFAULT
RC
printf 'A: b\n\nFrom x\nlast' > bare
HOME=$folder/home LOGNAME=joe "$program" ./home/rc < bare 2> said || fail "a rcfile as users keep it ended with status $?"
cd home/Mail
head -n 1 inbox | grep -q '^From joe [A-Z][a-z][a-z] [A-Z][a-z][a-z] [ 0-9][0-9] [0-9:]* [0-9]*$' || fail "the From line is $(head -n 1 inbox)"
printf 'A: b\n\n>From x\nlast\n\n' > want
tail -n +2 inbox | cmp -s - want || fail "the mailbox isn't the mail"
cmp -s inbox archive.2026-11 || fail "the archive isn't the mailbox"
tail -n +2 heads > head
printf 'A: b\n\n' | cmp -s - head || fail "the heads file isn't the head"
cd ../..
[ "$(cat said)" = 'procmail: Skipped "= this line is a mistake"' ] || fail "the mistake was told as: $(cat said)"

# The same moment by another program, in any time zone.
now=$(date -u '+%a %b %e %H:%M' | cut -c1-16)
TZ=Pacific/Auckland HOME=$folder/home LOGNAME=joe "$program" ./home/rc < bare 2> said || fail "the run in another time zone ended with status $?"
later=$(date -u '+%a %b %e %H:%M' | cut -c1-16)
line=$(grep '^From joe' home/Mail/inbox | tail -n 1)
case $line in
"From joe $now"* | "From joe $later"*) ;;
*) fail "the From line is $line, and the time is $later" ;;
esac

# A folder that isn't there, and a destination that can't be a name.
printf 'MAILDIR=/no/such/folder\n:0\n""\n:0\nmbox\n' > rc
"$program" -m rc < message 2> said || fail "a missing folder ended with status $?"
cmp -s mbox piece || fail "the mailbox behind a missing folder isn't the message"
printf "procmail: Couldn't chdir to \"/no/such/folder\"\nprocmail: Unusable name \"\"\"\"\n" | cmp -s - said || fail "said: $(cat said)"
echo "recipes: passed"
