#!/usr/bin/env bash
# The built program procmail-stat on logs of ours and of 3.22: its sums are those of mailstat where that is installed.
set -eu
. "$(dirname "$0")/common.bash"
stat=$programs/procmail-stat

# ends STATUS ARGUMENT..: the exit status; what was printed is in out and said.
ends() {
    local wanted=$1 status=0
    shift
    "$stat" "$@" > out 2> said || status=$?
    [ "$status" -eq "$wanted" ] || fail "$*: status $status, not $wanted: $(cat said)"
}

# rows: the bytes, mails and names of the folders.
rows() { awk '/^  -----/ { part++; next } part == 1 { sub(/^ +/, ""); sub(/ +/, " "); print }' "$1"; }

# A log as 3.22 writes it: tabs before the size, and files of directories.
tab=$(printf '\t')
cat > old <<LOG
From ann@example.org  Thu Jan  1 00:00:00 1970
 Subject: one
  Folder: mbox$tab$tab$tab$tab$tab$tab    120
procmail: Couldn't create or rename temp file "x.1"
From ann@example.org  Sun Nov 29 10:00:00 2026
 Subject: two
  Folder: lists/msg.aB3d$tab$tab$tab$tab     80
  Folder: Maildir/new/1764410000.21_0.host$tab$tab     81
  Folder: Maildir/new/1764410001.22_1.host:2,S$tab     82
  Folder: Maildir/new/1764410002.23_1.joe@host$tab$tab      5
  Folder: mh/12$tab$tab$tab$tab$tab     83
  Folder: mh/13$tab$tab$tab$tab$tab     84
  Folder: mbox$tab$tab$tab$tab$tab$tab     10
  Folder: a name with 5 blanks$tab$tab$tab      1
  Folder: /dev/null$tab$tab$tab$tab$tab      2
LOG
ends 0 old
rows out > ours
cat > wanted <<'ROWS'
2 1 /dev/null
168 3 Maildir/
1 1 a name with 5 blanks
80 1 lists/
130 2 mbox
167 2 mh/.
ROWS
cmp -s ours wanted || fail "the folders of a log of 3.22: $(diff wanted ours)"
grep -qx '    548      10' out || fail "the sums: $(cat out)"
if command -v mailstat > /dev/null; then
    LC_ALL=C mailstat -k old > theirs
    rows theirs | grep -v '^0 1  *## ' > wanted
    cmp -s ours wanted || fail "mailstat has others: $(diff wanted ours)"
fi

# The same mails in our form: a blank before the size.
sed "s/$tab$tab*  */ /" old > log
ends 0 log
rows out > again
cmp -s ours again || fail "the folders of our log: $(diff ours again)"

# A real log, by our program.
printf 'LOGFILE=real\nDEFAULT=rest\n:0\n* ^Subject: list\nmbox\n\n:0:\n* ^Subject: dir\nfiles/\n' > rc
mkdir -p files/new files/cur files/tmp
for subject in list dir other list; do
    printf 'From ann@example.org Thu Jan  1 00:00:00 1970\nSubject: %s\n\nhello\n' "$subject" | "$program" -m rc
done
ends 0 real
rows out | cut -d ' ' -f 2- > ours
printf '1 files/\n2 mbox\n1 rest\n' > wanted
cmp -s ours wanted || fail "the folders of a real log: $(cat ours real)"

# Messages by kind, with N for each number.
cat > log <<'LOG'
procmail: Couldn't get lock "a.lock"
procmail: Couldn't get lock "b.lock"
procmail: Program failure (1) of "x"
procmail: Program failure (12) of "y"
not a line of a log
  Folder: torn
  Folder: mbox
LOG
ends 1 log
printf "      2 Couldn't get lock\n      2 Program failure (N) of\n" > wanted
sed -n '/^ Number Message/,$p' out | tail -n +3 > ours
cmp -s ours wanted || fail "the messages: $(cat out)"

# From a day on, old logs, several logs and JSON.
ends 0 --since 2026-11-29 old
[ "$(rows out | wc -l)" -eq 6 ] && rows out | grep -qx '10 1 mbox' || fail "--since: $(cat out)"
ends 1 --since 2026-11-30 old
# The moment stands at the end of a line From, also without a sender; the year counts most, and then the month.
printf 'From Tue Jun 30 23:59:59 2026\n  Folder: june 1\nFrom ann@example.org Wed Jul  1 00:00:00 2026\n  Folder: july 2\n' > log
while read -r first wanted; do
    ends 0 --since "$first" log
    [ "$(rows out | cut -d ' ' -f 3 | paste -sd ' ')" = "$wanted" ] || fail "--since $first: $(cat out)"
done <<'ROWS'
2025-12-31 july june
2026-05-31 july june
2026-06-30 july june
2026-07-01 july
ROWS
ends 1 --since 2026-07-02 log
cp old mail.old
ends 0 -o mail
ends 0 old old
rows out | grep -qx '260 4 mbox' || fail "two logs: $(cat out)"
ends 0 --format json old
grep -q '"mails":10' out && grep -qF '{"bytes":167,"folder":"mh/.","mails":2}' out || fail "JSON: $(cat out)"

# What isn't understood, and what can't be read.
ends 64
ends 64 --since today old
ends 64 --format xml old
ends 66 none
[ "$(cat said)" = "procmail-stat: can't read none" ] && [ ! -s out ] || fail "a log that isn't there: $(cat said)"
ends 0 --help
ends 0 --version
[ "$(cat out)" = "procmail-stat $(cat "$top/VERSION")" ] || fail "--version: $(cat out)"

# A torn log with bytes of all kinds, and a large one in proportion.
head -c 200000 /dev/urandom > noise
cat noise old > torn
ends 0 torn
for _ in $(seq 200); do cat old; done > many
for _ in $(seq 20); do cat many; done > large
ends 0 large
rows out | grep -qx '520000 8000 mbox' || fail "a large log: $(cat out)"
echo "stat: passed"
