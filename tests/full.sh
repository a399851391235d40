#!/usr/bin/env bash
# A mailbox that can't grow, or can't be opened, is byte for byte as it was, and the log says so.
set -eu
. "$(dirname "$0")/common.bash"
mounted=
trap '[ -z "$mounted" ] || umount "$mounted" 2>/dev/null || true; rm -rf "$folder"' EXIT

# The mailbox is as before, the status is 73, this was said, and no lock file is left.
unchanged() {
    [ "$status" -eq 73 ] || fail "$1: status $status"
    cmp -s "$2" before || fail "$1: the mailbox changed"
    [ "$(head -n 1 said)" = "procmail: Couldn't write to \"$3\"" ] || fail "$1: said $(cat said)"
    [ "$(tail -n +2 said)" = "procmail: No delivery was made" ] || fail "$1: said $(cat said)"
    [ ! -e "$2.lock" ] || fail "$1: a lock file is left"
    echo "full: $1: the mailbox is as before"
}

printf ':0:\nmbox\n' > rc
{ printf 'From a@b Thu Jan  1 00:00:00 1970\nA: b\n\n'; head -c 1048576 /dev/zero | tr '\0' 'x'; printf '\n'; } > large
head -c 5000 /dev/zero | tr '\0' 'o' > before

# A limit on the size of files, in the middle of the message. The signal that comes with it is ignored.
cp before mbox
status=0
(trap '' XFSZ; ulimit -f 512; exec "$program" -m rc) < large 2> said || status=$?
if [ "$status" -eq 0 ]; then
    echo "full: no limit on the size of files can be made here: skipped"
else
    unchanged "a limit on the size of files" mbox mbox
fi

# A file system that is full in the middle of the message.
mkdir small
printf ':0:\nsmall/mbox\n' > rc2
if mount -t tmpfs -o size=600k tmpfs small 2>/dev/null; then
    mounted=$folder/small
    cp before small/mbox
    status=0
    "$program" -m rc2 < large 2> said || status=$?
    unchanged "a full file system" small/mbox small/mbox
    umount small
    mounted=
else
    echo "full: no small file system can be made here: skipped"
fi

# A file system that has no room for the lock file, and one that has room for it but not for the mailbox.
if mount -t tmpfs -o size=600k,nr_inodes=2 tmpfs small 2>/dev/null; then
    mounted=$folder/small
    cp before small/mbox
    status=0
    "$program" -m rc2 < large 2> said || status=$?
    [ "$status" -eq 73 ] || fail "no room for the lock file: status $status"
    [ "$(cat said)" = 'procmail: Couldn'\''t get lock "small/mbox.lock"
procmail: No delivery was made' ] || fail "no room for the lock file: said $(cat said)"
    cmp -s small/mbox before || fail "no room for the lock file: the mailbox changed"
    echo "full: no room for the lock file: the mailbox is as before"
    rm small/mbox
    status=0
    "$program" -m rc2 < large 2> said || status=$?
    [ "$status" -eq 73 ] || fail "no room for the mailbox: status $status"
    [ "$(cat said)" = 'procmail: Couldn'\''t write to "small/mbox"
procmail: No delivery was made' ] || fail "no room for the mailbox: said $(cat said)"
    [ -z "$(ls small)" ] || fail "no room for the mailbox: $(ls small) is left"
    echo "full: no room for the mailbox: nothing is left"
    umount small
    mounted=
else
    echo "full: no file system of few files can be made here: skipped"
fi

# A mailbox that another user may not write to.
if [ "$(id -u)" -eq 0 ] && command -v setpriv >/dev/null; then
    chmod 777 "$folder"
    cp before mbox
    chmod 444 mbox
    cp "$program" procmail
    status=0
    setpriv --reuid=65534 --regid=65534 --clear-groups ./procmail -m rc < large 2> said || status=$?
    unchanged "a mailbox that can't be opened for writing" mbox mbox
else
    chmod 444 mbox
    cp before mbox 2>/dev/null || true
    echo "full: no other user here: skipped"
fi
# A folder in which no lock file can be made: nothing is delivered.
if [ "$(id -u)" -eq 0 ] && command -v setpriv >/dev/null; then
    mkdir closed
    cp before closed/mbox
    chmod 666 closed/mbox
    printf ':0:\nclosed/mbox\n' > rc3
    status=0
    setpriv --reuid=65534 --regid=65534 --clear-groups ./procmail -m rc3 < large 2> said || status=$?
    [ "$status" -eq 73 ] || fail "no lock file can be made: status $status"
    [ "$(head -n 1 said)" = "procmail: Couldn't get lock \"closed/mbox.lock\"" ] || fail "no lock file can be made: said $(cat said)"
    cmp -s closed/mbox before || fail "no lock file can be made: the mailbox changed"
    echo "full: no lock file can be made: the mailbox is as before"
fi
echo "full: passed"
