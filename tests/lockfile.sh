#!/usr/bin/env bash
# The built program lockfile on real files: what it makes, waits for, forces and removes again, its words, its lines and
# its statuses.
set -eu
. "$(dirname "$0")/common.bash"
program=$programs/lockfile

# The words after the status end with it, with this line on standard error, and with these files in the folder.
ends() {
    wanted=$1 line=$2 files=$3
    shift 3
    status=0
    "$program" "$@" > out 2> said || status=$?
    [ "$status" -eq "$wanted" ] || fail "the words $* ended with status $status, not $wanted: $(cat said)"
    [ ! -s out ] || fail "the words $* wrote to standard output"
    [ "$(cat said)" = "$line" ] || fail "the words $* said: $(cat said)"
    rm -f out said
    [ "$(ls)" = "$files" ] || fail "the words $* left: $(ls)"
}
# The seconds that the words after the two bounds take.
takes() {
    least=$1 most=$2
    shift 2
    begin=$(date +%s)
    "$@"
    seconds=$(($(date +%s) - begin))
    [ "$seconds" -ge "$least" ] && [ "$seconds" -le "$most" ] || fail "$* took $seconds seconds"
}
none=

# A lock is taken, and a second one too; an empty file stands for each.
ends 0 "$none" a a
[ ! -s a ] || fail "the lock file isn't empty"
rm a
ends 0 "$none" "a
b" a b
rm a b
# A name may begin with any byte but a dash.
ends 0 "$none" '#a' '#a'
rm '#a'

# A lock that stays, with no retry, with one, and with two behind a sleep of a second.
touch a
sorry='lockfile: Sorry, giving up on "a"'
takes 0 6 ends 73 "$sorry" a -r0 a
takes 1 6 ends 73 "$sorry" a -1 -r1 a
takes 2 7 ends 73 "$sorry" a -1 -r 2 a
# Without numbers it sleeps for 8 seconds between two tries, and for 16 after a removal by force. strace says so, and
# no time passes.
sleeps=nanosleep,clock_nanosleep
if strace -qq -o /dev/null -e inject="$sleeps:retval=0" true 2> /dev/null; then
    status=0
    strace -qq -o calls -e trace="$sleeps" -e inject="$sleeps:retval=0" "$program" -r2 a 2> /dev/null || status=$?
    [ "$status" -eq 73 ] && [ "$(grep -o 'tv_sec=[0-9]*' calls | paste -sd ' ')" = 'tv_sec=8 tv_sec=8' ] ||
        fail "the sleeps of two retries: status $status: $(cat calls)"
    touch -d '10 minutes ago' a
    strace -qq -o calls -e trace="$sleeps" -e inject="$sleeps:retval=0" "$program" -l 60 a 2> /dev/null || status=$?
    [ "$(grep -o 'tv_sec=[0-9]*' calls)" = tv_sec=16 ] || fail "the sleep after a removal: $(cat calls)"
    # With -r -1 it gives up after 1,000,000 tries.
    if strace -f --seccomp-bpf -qq -o /dev/null true 2> /dev/null; then
        strace -f --seccomp-bpf -qq -c -o calls -e trace="$sleeps" -e inject="$sleeps:retval=0" "$program" -r -1 a \
            2> /dev/null || status=$?
        [ "$status" -eq 73 ] && [ "$(awk '/nanosleep$/ { print $4 }' calls)" = 999999 ] ||
            fail "the sleeps of -r -1: status $status: $(cat calls)"
    fi
    rm calls
else
    echo "$name: no strace here, or it may not trace: the sleeps: skipped"
fi
# It is got once it is gone.
(sleep 2; rm a) &
takes 1 8 ends 0 "$none" a -1 -r9 a
wait

# The first is removed where the second can't be made, and no later one is tried.
mv a b
ends 73 'lockfile: Sorry, giving up on "b"' b -r0 a b c
mkdir a
ends 73 'lockfile: Sorry, giving up on "a"' "a
b" -r0 c a
rmdir a
rm b

# A setting holds for the names behind it.
touch b
takes 0 2 ends 73 'lockfile: Sorry, giving up on "b"' b -3 a -r0 b
rm b

# Both statuses are exchanged by -!, wherever it stands.
ends 73 "$none" a -! a
ends 0 "$sorry" a -r0 a -!
rm a

# A lock file older than the limit is removed by force, and the next try comes after the suspension. One of more than
# 16 bytes is never forced, and neither is a newer one.
touch -d '10 minutes ago' a
takes 1 6 ends 0 'lockfile: Forcing lock on "a"' a -l 60 -s 1 a
printf '12345678901234567' > a
touch -d '10 minutes ago' a
ends 73 "$sorry" a -r0 -l60 -s1 a
touch a
ends 73 "$sorry" a -r0 -l600 a
rm a

# The lock of the system mailbox of LOGNAME.
mailbox=/var/mail/lockfile-test-$$.lock
if [ -d /var/mail ] && [ -w /var/mail ] && [ ! -e "$mailbox" ]; then
    export LOGNAME=lockfile-test-$$
    ends 0 "$none" '' -ml
    [ -e "$mailbox" ] || fail "-ml made no $mailbox"
    ends 73 "lockfile: Sorry, giving up on \"$mailbox\"" '' -r0 a -ml
    ends 0 "$none" '' -mu
    [ ! -e "$mailbox" ] || fail "-mu left $mailbox"
    ends 73 "lockfile: Sorry, giving up on \"$mailbox\"" '' a -mu
    ends 0 "$none" a a -ml -mu
    rm a
else
    echo "$name: no lock can be made in /var/mail here: skipped"
fi

# LOGNAME counts as nobody if it is unset, empty, or has a blank or a control character.
if [ ! -e /var/mail/nobody.lock ]; then
    nobody='lockfile: Sorry, giving up on "/var/mail/nobody.lock"'
    (unset LOGNAME && ends 73 "$nobody" '' -mu)
    for login in '' 'a b' $'a\tb' $'a\001'; do (export LOGNAME=$login && ends 73 "$nobody" '' -mu); done
fi

# A folder that isn't there, and one that another user may not write to.
ends 73 'lockfile: Sorry, giving up on "none/b"' '' -r0 a none/b
if [ "$(id -u)" -eq 0 ] && command -v setpriv > /dev/null; then
    chmod 755 "$folder"
    cp "$program" "$folder/lockfile"
    status=0
    setpriv --reuid=65534 --regid=65534 --clear-groups ./lockfile -r0 a 2> /dev/null || status=$?
    [ "$status" -eq 73 ] && [ ! -e a ] || fail "a folder that can't be written: status $status"
    rm lockfile
else
    echo "$name: no other user here: skipped"
fi

# Words that aren't read, and none: nothing is done or said.
ends 64 "$none" ''
ends 64 "$none" '' -!
ends 64 "$none" '' -r1
ends 64 "$none" '' a ''
for words in -x -m -mm -R0 -r -l -s '-r x' '-r -2' '-r 1000000' '-l 1234567890' -1234567890 - '-!x'; do
    ends 64 "$none" '' a $words
done
ends 64 "$none" '' a "$(printf 'b\377')"

# Where memory is wanting, nothing is done or said.
if command -v prlimit > /dev/null; then
    status=0
    prlimit --data=1000000 "$program" -r0 $(seq -f 'n%05g' 20000) > said 2>&1 || status=$?
    [ "$status" -eq 71 ] && [ ! -s said ] || fail "20,000 names in a megabyte: status $status, said $(head -c 200 said)"
    rm said
    [ -z "$(ls)" ] || fail "20,000 names in a megabyte: some were made"
else
    echo "$name: no limit on memory can be set here: skipped"
fi

# Twenty programs at once take turns at one lock.
for number in 1 2 3 4 5 6 7 8 9 10 11 12 13 14 15 16 17 18 19 20; do
    (
        "$program" -1 lock || exit 1
        count=$(cat counter 2> /dev/null || echo 0)
        echo $((count + 1)) > counter
        rm lock
    ) &
done
wait
[ "$(cat counter)" -eq 20 ] || fail "twenty programs counted to $(cat counter)"
echo "$name: passed"
