#!/usr/bin/env bash
# A mailbox that is moved, replaced or removed in the middle of a delivery: all of the mail is in the one file that was opened
# for it, or none of it is and the log says so. What another program adds meanwhile stays. strace delays each write, so that
# there is a middle.
set -eu
. "$(dirname "$0")/common.bash"
mounted=
trap '[ -z "$mounted" ] || umount "$mounted" 2> /dev/null || true; rm -rf "$folder"' EXIT
if ! strace -qq -o /dev/null -e inject=write:delay_enter=1 true 2> /dev/null; then
    echo "moved: no strace here that delays calls, or it may not trace: skipped"
    exit 0
fi

# A message of about 100,000 bytes, which is written in 25 parts.
{ printf 'From a@b Thu Jan  1 00:00:00 1970\nA: b\n\n'; awk 'BEGIN { for (i = 1; i <= 2500; i++) printf "line %d of a message of some length\n", i }'; } > message
{ cat message; echo; } > piece
printf 'old mail\n\n' > old
printf 'new mail\n\n' > new
cat old piece > both

# Delivers to the mailbox in this folder, and does this as soon as some of the mail is there.
meanwhile() {
    cp old "$1/mbox"
    printf ':0:\n%s/mbox\n' "$1" > rc
    strace -f -qq -o /dev/null -e inject=write:delay_enter=60000 "$program" -m rc < message 2> said &
    one=$!
    until [ "$(wc -c < "$1/mbox")" -gt 4200 ]; do
        kill -0 "$one" 2> /dev/null || fail "$about: the delivery ended before its middle"
    done
    "$2" "$1"
    [ "$(wc -c < "$1/first")" -lt 90000 ] || fail "$about: it came too late"
    status=0
    wait "$one" || status=$?
    [ ! -e "$1/mbox.lock" ] || fail "$about: the lock file is left"
}
move() { mv "$1/mbox" "$1/first"; }
replace() { ln "$1/mbox" "$1/first"; cp new "$1/other"; mv "$1/other" "$1/mbox"; }
remove() { ln "$1/mbox" "$1/first"; rm "$1/mbox"; }
add() { ln "$1/mbox" "$1/first"; printf '\nanother line\n' >> "$1/mbox"; }

# The mail is whole behind the old one, in the file that was there first.
whole() {
    [ "$status" -eq 0 ] || fail "$about: status $status: $(cat said)"
    [ ! -s said ] || fail "$about: said $(cat said)"
    cmp -s first both || fail "$about: the mail isn't whole in the file that was there first"
}

about="a mailbox that is moved"
meanwhile . move
whole
[ ! -e mbox ] || fail "$about: there is another one"
echo "moved: $about: the mail is whole in it"

rm -f first
about="a mailbox that is replaced"
meanwhile . replace
whole
cmp -s mbox new || fail "$about: the new one has something of the mail"
echo "moved: $about: the mail is whole in the first one, and the new one has nothing of it"

rm -f first
about="a mailbox that is removed"
meanwhile . remove
whole
[ ! -e mbox ] || fail "$about: there is another one"
echo "moved: $about: the mail is whole in it"

# The same where a later write fails, on a file system that is full then.
mkdir small
if mount -t tmpfs -o size=64k tmpfs small 2> /dev/null; then
    mounted=$folder/small
    for act in move replace remove; do
        about="a mailbox on a full file system, with $act"
        rm -f small/first
        meanwhile small "$act"
        [ "$status" -eq 73 ] || fail "$about: status $status: $(cat said)"
        [ "$(cat said)" = 'procmail: Couldn'\''t write to "small/mbox"
procmail: No delivery was made' ] || fail "$about: said $(cat said)"
        cmp -s small/first old || fail "$about: something of the mail is left in the file that was there first"
        case $act in
            replace) cmp -s small/mbox new || fail "$about: the new one changed" ;;
            *) [ ! -e small/mbox ] || fail "$about: there is another one" ;;
        esac
    done
    rm -f small/first
    about="a mailbox on a full file system, to which another program adds a line"
    meanwhile small add
    [ "$status" -eq 73 ] || fail "$about: status $status: $(cat said)"
    grep -q '^procmail: [0-9]* bytes left in "small/mbox"$' said || fail "$about: said $(cat said)"
    grep -qx 'another line' small/mbox || fail "$about: the line is gone"
    head -n 2 small/mbox | cmp -s - old || fail "$about: the old mail isn't what it was"
    umount small
    mounted=
    echo "moved: on a full file system the mail is undone in the file that was there first, and nothing else changed"
else
    echo "moved: no small file system can be made here: skipped"
fi

# A link to nothing, whose target gets bytes of another program before the first write of the mail fails.
about="a link to nothing, to whose target another program writes"
rm -f mbox
ln -s target mbox
printf ':0:\nmbox\n' > rc
strace -f -qq -o /dev/null -e inject=write:error=ENOSPC:delay_enter=2000000:when=1 "$program" -m rc < message 2> said &
one=$!
until [ -e target ]; do
    kill -0 "$one" 2> /dev/null || fail "$about: the delivery ended before it made the target"
done
cat new >> target
status=0
wait "$one" || status=$?
[ "$status" -eq 73 ] || fail "$about: status $status: $(cat said)"
[ -L mbox ] && cmp -s target new || fail "$about: what the other program wrote isn't there"
echo "moved: $about: what it wrote stays"
echo "moved: passed"
