#!/usr/bin/env bash
# A delivery counts as done only after the system was asked to bring the file to the store: where that fails, the mailbox is
# as before, or the log says how many bytes are left, and no lock file stays behind but one whose own removal failed. The
# failing calls are made by strace.
set -eu
. "$(dirname "$0")/common.bash"
if ! strace -qq -o /dev/null true 2> /dev/null; then
    echo "sync: no strace here, or it may not trace: skipped"
    exit 0
fi
unset MAILDIR DEFAULT ORGMAIL

# Runs the program with these injected errors: `ends STATUS SAID INJECTION.. -- WORDS`.
ends() {
    wanted=$1 line=$2
    shift 2
    injected=()
    while [ "$1" != -- ]; do
        injected+=(-e "inject=$1")
        shift
    done
    shift
    status=0
    strace -f -qq -o /dev/null "${injected[@]}" "$program" "$@" < message 2> said || status=$?
    [ "$status" -eq "$wanted" ] || fail "$about: status $status, not $wanted: $(cat said)"
    [ "$(cat said)" = "$line" ] || fail "$about: said $(cat said)"
}
# These files hold the same bytes.
same() {
    cmp -s "$1" "$2" || fail "$about: $1 isn't as $2"
}
unlocked() {
    for lock in *.lock; do
        [ ! -e "$lock" ] || fail "$about: the lock file $lock is left"
    done
}

printf 'From a@b Thu Jan  1 00:00:00 1970\nA: b\n\nhi\n' > message
printf 'From a@b Thu Jan  1 00:00:00 1970\nA: b\n\nhi\n\n' > piece
printf 'old mail\n\n' > old
cat old piece > both
printf ':0:\nmbox\n' > rc
lost='procmail: Couldn'\''t write to "mbox"
procmail: No delivery was made'

about="a mailbox whose sync fails"
cp old mbox
ends 73 "$lost" fsync:error=EIO -- -m rc
same mbox old
unlocked

about="a new mailbox whose sync fails"
rm mbox
ends 73 "$lost" fsync:error=EIO -- -m rc
[ ! -e mbox ] || fail "$about: it stays"
unlocked

about="a store that is full at the sync"
cp old mbox
ends 73 "$lost" fsync:error=ENOSPC -- -m rc
same mbox old
unlocked

about="a mailbox that can't be cut back either"
ends 73 "procmail: $(wc -c < piece) bytes left in \"mbox\"
procmail: No delivery was made" fsync:error=EIO ftruncate:error=EIO -- -m rc
same mbox both
unlocked

about="a lock file that can't be removed behind a failed sync"
cp old mbox
ends 73 'procmail: Couldn'\''t write to "mbox"
procmail: Couldn'\''t remove lock "mbox.lock"
procmail: No delivery was made' fsync:error=EIO unlink:error=EIO unlinkat:error=EIO -- -m rc
same mbox old
[ -e mbox.lock ] || fail "$about: it is gone"
rm mbox.lock

about="the second of two mailboxes"
printf ':0:\nmbox other\n' > two
ends 73 'procmail: Couldn'\''t write to "other"
procmail: No delivery was made' fsync:error=EIO:when=2 -- -m two
same mbox both
[ ! -e other ] || fail "$about: it stays"
unlocked

about="a recipe behind one whose sync failed"
printf ':0:\nmbox\n\n:0:\nother\n' > next
cp old mbox
ends 0 'procmail: Couldn'\''t write to "mbox"' fsync:error=EIO:when=1 -- -m next
same mbox old
same other piece
unlocked
rm other

about="DEFAULT, whose sync fails, and then ORGMAIL"
printf 'DEFAULT=%s/mbox\nORGMAIL=%s/other\n' "$folder" "$folder" > default
cp old mbox
ends 0 "procmail: Couldn't write to \"$folder/mbox\"" fsync:error=EIO:when=1 -- ./default
same mbox old
same other piece
unlocked

about="DEFAULT and ORGMAIL, whose syncs fail"
cp old other
ends 73 "procmail: Couldn't write to \"$folder/mbox\"
procmail: Couldn't write to \"$folder/other\"
procmail: No delivery was made" fsync:error=EIO -- ./default
same mbox old
same other old
unlocked

about="a log line to standard error"
cp old mbox
ends 0 '' -- -m rc
same mbox both
unlocked
echo "sync: passed"
