#!/usr/bin/env bash
# The programs where they meet the system: standard streams that are closed, a limit on the size of files,
# mailboxes that are FIFOs or symbolic links to nothing, rcfiles that are pipes, a maildir's move, odd host names.
# No byte stands in a mailbox that isn't the mail's.
set -eu
. "$(dirname "$0")/common.bash"
unset MAILDIR DEFAULT ORGMAIL

# Runs a command or a function of this script, whose status must be this one: `ends STATUS COMMAND ..`. What it says
# goes to the file said.
ends() {
    local wanted=$1 status=0
    shift
    if [ "$(type -t "$1")" = function ]; then
        "$@" 2> said || status=$?
    else
        timeout 60 "$@" 2> said || status=$?
    fi
    [ "$status" -eq "$wanted" ] || fail "$about: status $status, not $wanted: $(cat said)"
}
# These files hold the same bytes.
same() {
    cmp -s "$1" "$2" || fail "$about: $1 isn't as $2"
}
absent() {
    for one in "$@"; do
        [ ! -e "$one" ] || fail "$about: $one is left"
    done
}

printf 'From a@b Thu Jan  1 00:00:00 1970\nA: b\n\nhi\n' > message
printf 'From a@b Thu Jan  1 00:00:00 1970\nA: b\n\nhi\n\n' > piece
{ cat message; head -c 20000 /dev/zero | tr '\0' x; echo; } > large
{ cat large; echo; } > large-piece
printf 'old mail\n\n' > old
cat old piece > both

# Standard streams that are closed. The rcfile files the mail without a lock, so that the mailbox is still open when
# the next line is logged on standard error.
printf ':0 c\nmbox\n\n:0 %%\nother\n' > rc
for streams in '2>&-' '>&-' '>&- 2>&-'; do
    about="procmail $streams"
    rm -f mbox other
    status=0
    eval "timeout 60 \"\$program\" -m rc < message 2> /dev/null $streams" || status=$?
    [ "$status" -eq 0 ] || fail "$about: status $status"
    same mbox piece
    same other piece
done
for streams in '<&-' '<&- 2>&-' '<&- >&-' '<&- >&- 2>&-'; do
    about="procmail $streams"
    rm -f mbox other
    status=0
    eval "timeout 60 \"\$program\" -m rc $streams" 2> /dev/null || status=$?
    [ "$status" -eq 74 ] || fail "$about: status $status"
    absent mbox other
done
about="the line that is logged"
rm -f mbox other
ends 0 "$program" -m rc < message
[ "$(cat said)" = 'procmail: Skipped ":0 %"' ] || fail "$about: $(cat said)"

# A write to standard output that is closed fails, and the next recipe gets the mail.
printf ':0 c\nmbox\n\n:0\n|\n\n:0\nother\n' > rc
for streams in '>&-' '>&- 2>&-'; do
    about="procmail that writes to standard output, $streams"
    rm -f mbox other
    status=0
    eval "timeout 60 \"\$program\" -m rc < message $streams" 2> /dev/null || status=$?
    [ "$status" -eq 0 ] || fail "$about: status $status"
    same mbox piece
    same other piece
done

about="a test delivery without standard output"
printf ':0\nmbox\n' > rc
rm -f mbox
status=0
timeout 60 "$program" --trial 1 >&- 2> said || status=$?
[ "$status" -ne 0 ] || fail "$about: status 0"
[ ! -e mbox ] || ! grep -q '^messages' mbox || fail "$about: its lines are in the mailbox"

# A child gets /dev/null in place of a standard error that is closed.
about="a child without standard error"
printf ':0\n| { echo lost >&2 && cat > out; }\n' > rc
status=0
timeout 60 "$program" -m rc < message 2>&- || status=$?
[ "$status" -eq 0 ] || fail "$about: status $status"
same out message

about="formail without standard output"
status=0
timeout 60 "$programs/formail" -x A: < message >&- 2> said || status=$?
[ "$status" -ne 0 ] || fail "$about: status 0"
printf 'Message-ID: <one@two>\n\nhi\n' > single
for streams in '>&-' '2>&-' '>&- 2>&-'; do
    about="formail -D $streams"
    rm -f cache
    eval "timeout 60 \"\$programs/formail\" -D 100 cache < single $streams" 2> /dev/null || true
    printf '<one@two>\n' | cmp -s - cache || fail "$about: the cache is $(cat cache)"
done
for streams in '<&-' '2>&-' '<&- >&- 2>&-'; do
    about="lockfile $streams"
    rm -f a.lock
    eval "timeout 60 \"\$programs/lockfile\" -r1 -1 a.lock missing/b.lock $streams" 2> /dev/null \
        && fail "$about: status 0"
    absent a.lock
    eval "timeout 60 \"\$programs/lockfile\" a.lock $streams" 2> /dev/null || fail "$about: status $?"
    [ "$(wc -c < a.lock)" -le 1 ] || fail "$about: the lock file is $(cat a.lock)"
    rm -f a.lock
done

# A limit of 8,192 bytes on the size of files, with its signal as it comes, and ignored.
limited() {
    local signal=$1
    shift
    (
        [ "$signal" = comes ] || trap '' XFSZ
        ulimit -f 8 && exec timeout 60 "$@"
    )
}
for signal in comes ignored; do
    printf ':0:\nmbox\n' > rc
    about="a mail larger than the limit, whose signal is $signal"
    cp old mbox
    ends 73 limited "$signal" "$program" -m rc < large
    same mbox old
    absent mbox.lock
    grep -q 'write to "mbox"' said || fail "$about: said $(cat said)"

    about="a new mailbox larger than the limit, whose signal is $signal"
    rm -f mbox
    ends 73 limited "$signal" "$program" -m rc < large
    absent mbox mbox.lock

    about="a mailbox that is at the limit, whose signal is $signal"
    head -c 8192 /dev/zero > mbox
    cp mbox before
    ends 73 limited "$signal" "$program" -m rc < message
    same mbox before
    absent mbox.lock

    about="a mailbox that comes up to the limit, whose signal is $signal"
    head -c $((8192 - $(wc -c < piece))) /dev/zero > mbox
    cat mbox piece > before
    ends 0 limited "$signal" "$program" -m rc < message
    same mbox before
    rm -f mbox

    about="a maildir and the limit, whose signal is $signal"
    printf ':0\nmd/\n' > rc
    ends 73 limited "$signal" "$program" -m rc < large
    [ -z "$(find md -type f)" ] || fail "$about: $(find md -type f) is left"
    rm -r md

    about="a log file at the limit, whose signal is $signal"
    printf 'LOGFILE=log\n:0:\nmbox\n' > rc
    head -c 8192 /dev/zero > log
    cp log before
    ends 0 limited "$signal" "$program" -m rc < message
    same mbox piece
    same log before
    absent mbox.lock
    rm -f mbox log

    about="standard error at the limit, whose signal is $signal"
    printf ':0 c %%\nother\n\n:0:\nmbox\n' > rc
    cp before log
    status=0
    limited "$signal" "$program" -m rc < message 2>> log || status=$?
    [ "$status" -eq 0 ] || fail "$about: status $status"
    same mbox piece
    same log before
    absent mbox.lock
    rm -f mbox

    about="standard output that reaches the limit, whose signal is $signal"
    printf ':0 :lock\n|\n\n:0:\nmbox\n' > rc
    status=0
    limited "$signal" "$program" -m rc < large > out 2> said || status=$?
    [ "$status" -eq 73 ] || fail "$about: status $status"
    absent lock mbox mbox.lock
    status=0
    limited "$signal" "$programs/formail" -f < large > out 2> said || status=$?
    [ "$status" -eq 74 ] || fail "$about: formail's status $status"
    cp before out
    limited "$signal" "$programs/formail" -f < message >> out 2> said && fail "$about: formail's status 0"
    same out before
done

# A FIFO with a reader gets the mail once.
about="a FIFO"
printf ':0:\nfifo\n\n:0:\nother\n' > rc
rm -f other
mkfifo fifo
timeout 60 cat fifo > got &
reader=$!
ends 0 "$program" -m rc < message
wait "$reader"
same got piece
absent other fifo.lock
[ ! -s said ] || fail "$about: said $(cat said)"

# The target of a symbolic link is made, and the link stays; a lock file isn't made through one.
about="a link to nothing"
printf ':0:\nmbox\n' > rc
rm -f mbox
ln -s target mbox
ends 0 "$program" -m rc < message
[ -L mbox ] || fail "$about: the link is gone"
same target piece
[ "$(stat -c %a target)" = 600 ] || fail "$about: the target has the mode $(stat -c %a target)"
ends 0 "$program" -m rc < message
cat piece piece | cmp -s - target || fail "$about: the second mail"
about="a link to nothing and a limit"
rm target
ends 73 limited comes "$program" -m rc < large
[ -L mbox ] && [ ! -s target ] || fail "$about: something is left"
rm -f target
about="a link to nothing in a directory that isn't there"
ln -sf none/target mbox
ends 73 "$program" -m rc < message
[ -L mbox ] || fail "$about: the link is gone"
about="a lock file that is a link to nothing"
rm -f mbox
ln -s target mbox.lock
touch -h -d '2000-01-01' mbox.lock
printf 'LOCKSLEEP=1\n:0:\nmbox\n' > rc
timeout 3 "$program" -m rc < message 2> said || true
absent target
timeout 3 "$programs/lockfile" -r1 -1 mbox.lock 2> /dev/null && fail "$about: lockfile took it"
absent target
rm -f mbox.lock mbox

# An rcfile that is a pipe, also one of more than a part.
about="an rcfile that is a pipe"
ends 0 "$program" -m <(printf ':0:\nmbox\n') < message
same mbox piece
rm mbox
{ for line in $(seq 1000); do echo "# a comment of some length, the line $line"; done; printf ':0:\nmbox\n'; } > long
ends 0 "$program" -m <(cat long) < message
same mbox piece
rm mbox
mkfifo rc-fifo
cat long > rc-fifo &
ends 0 "$program" -m rc-fifo < message
same mbox piece
rm mbox

# A mail goes into a maildir's new by a link, so that no file there is replaced. strace makes the calls fail.
printf ':0\nmd/\n' > rc
in_maildir() {
    [ "$(find md/new -type f | wc -l)" -eq "$1" ] || fail "$about: $(find md/new -type f | wc -l) files in new"
    [ "$(find md -type f | wc -l)" -eq "$1" ] || fail "$about: a file is left in tmp"
}
if strace -qq -o /dev/null -e inject=link,linkat:error=EPERM true 2> /dev/null; then
    traced() {
        local injected=$1
        shift
        timeout 60 strace -f -qq -o trace -e trace=link,linkat,unlink,unlinkat -e "inject=$injected" "$@"
    }
    about="a maildir"
    strace -f -qq -o trace -e trace=link,linkat,rename,renameat,renameat2 "$program" -m rc < message
    grep -q '^[0-9]* *link' trace && ! grep -q rename trace || fail "$about: $(cat trace)"
    in_maildir 1
    about="a maildir of a file system without links"
    for error in EPERM EOPNOTSUPP ENOSYS EMLINK; do
        rm -r md
        ends 0 traced "link,linkat:error=$error" "$program" -m rc < message
        in_maildir 1
    done
    about="a name that is taken in new"
    rm -r md
    ends 0 traced link,linkat:error=EEXIST:when=1 "$program" -m rc < message
    in_maildir 1
    about="a link that fails"
    rm -r md
    ends 73 traced link,linkat:error=EIO "$program" -m rc < message
    in_maildir 0
    about="a name in tmp that can't be removed"
    rm -r md
    ends 73 traced unlink,unlinkat:error=EIO:when=1 "$program" -m rc < message
    in_maildir 0
else
    echo "edge: no strace here, or it may not trace: the calls of a maildir are skipped"
    ends 0 "$program" -m rc < message
    in_maildir 1
fi
rm -r md

# Host names that can't stand in the name of a maildir's file. They are put over the machine's for one process.
printf 'mx.example.org\n' > host
if unshare -m sh -c 'mount --bind host /etc/hostname' 2> /dev/null; then
    printf 'HOST_SEEN=$HOST\n:0 wi\n| echo "$HOST_SEEN" > seen\n' > rc
    host_of() {
        unshare -m sh -c 'mount --bind "$1" /etc/hostname && shift && exec timeout 10 "$@"' sh "$@"
    }
    seen_as() {
        rm -f seen
        ends 0 host_of "$1" "$program" -m rc < message
        [ "$(cat seen)" = "$2" ] || fail "$about: the host is $(cat seen)"
    }
    about="a host name"
    seen_as host mx.example.org
    about="a host name with a colon"
    printf 'mx:2,S\n' > host
    seen_as host localhost
    about="a host name with a control character"
    printf 'mx\001\n' > host
    seen_as host localhost
    printf 'mx\177\n' > host
    seen_as host localhost
    about="a host name of 200 bytes"
    long_name=$(head -c 200 /dev/zero | tr '\0' h)
    printf '%s\n' "$long_name" > host
    seen_as host "$long_name"
    about="a host name of 201 bytes"
    printf '%sh\n' "$long_name" > host
    seen_as host localhost
    about="a FIFO in place of the host name"
    mkfifo host-fifo
    seen_as host-fifo localhost
else
    echo "edge: another host name can't be put in place here (root and unshare are needed): skipped"
fi
echo "edge: passed"
