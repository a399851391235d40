#!/usr/bin/env bash
# The cache of `formail -D` on real files: each new identifier is appended and synced to disk before the next one; what a
# failed sync, a failed write and a full disk leave; and the same identifiers as 3.22 keeps. 3.22 ends each with a byte 0
# and the last one with two, formail with a newline. Once the cache has MAXLEN bytes, 3.22 goes on at its beginning and
# writes over what is there, and formail empties it.
set -eu
. "$(dirname "$0")/common.bash"
formail=$programs/formail
mounted=
trap '[ -z "$mounted" ] || umount "$mounted" 2>/dev/null || true; rm -rf "$folder"' EXIT
fails() { status=0; "$@" > out || status=$?; }
# The run ended so, wrote this file's bytes, and left no lock file.
ended() {
    [ "$status" -eq "$1" ] || fail "$about: status $status, not $1"
    cmp -s out "$2" || fail "$about: wrote $(head -c 200 out)"
    [ ! -e c.lock ] || fail "$about: the lock file is left"
}
# The cache has these bytes.
has() { printf "$1" | cmp -s - c || fail "$about: the cache has $(head -c 200 c)"; }

mail() { printf 'From a@b Thu Jan  1 00:00:00 1970\nMessage-ID: <%s@x>\n\n%s\n\n' "$1" "$1"; }
for id in a b c; do mail $id > $id.mail; done
cat a.mail b.mail c.mail > three
cat a.mail b.mail a.mail c.mail b.mail > doubles
: > none

about="three new mails and two duplicates"
fails "$formail" -D 8192 c -s < doubles
ended 0 three
has '<a@x>\n<b@x>\n<c@x>\n'

about="the same again"
fails "$formail" -D 8192 c -s < doubles
ended 0 none
has '<a@x>\n<b@x>\n<c@x>\n'

about="a cache that is full before the second mail"
printf '<b@x>\n' > c
fails "$formail" -D 6 c -s < three
ended 0 three
has '<c@x>\n'

# Which identifiers 3.22 keeps of the same mails.
other=$(command -v formail || true)
if [ -n "$other" ] && "$other" -v 2>&1 | grep -q '^formail v3\.2'; then
    about="the identifiers that 3.22 keeps"
    rm -f c
    fails "$formail" -D 8192 c -s < doubles
    "$other" -D 8192 other.cache -s < doubles > other.out
    cmp -s out other.out || fail "$about: other mails were written"
    printf '<a@x>\0<b@x>\0<c@x>\0\0' | cmp -s - other.cache || fail "$about: 3.22 has another form of cache"
    tr '\0' '\n' < other.cache | head -c -1 | cmp -s - c || fail "$about: others"
    for id in a d b; do
        was=0
        mail $id | "$formail" -D 8192 c || was=$?
        now=0
        mail $id | "$other" -D 8192 other.cache || now=$?
        [ "$was" -eq "$now" ] || fail "$about: $id: status $was, and 3.22 has $now"
    done
    tr '\0' '\n' < other.cache | head -c -1 | cmp -s - c || fail "$about: others, after mails one by one"
    about="a full cache of 3.22"
    rm other.cache
    for id in 1 2 3 4; do mail $id | "$other" -D 16 other.cache || true; done
    printf '<4@x>\000\0002@x>\000<3@x>\000\000' | cmp -s - other.cache || fail "$about: 3.22 has $(od -An -c other.cache | tr -d ' \n')"
else
    echo "caches: no formail of 3.22 here: not compared"
fi

# A full disk: the first identifier has room, and the second one hasn't.
mkdir small
if mount -t tmpfs -o size=8k tmpfs small 2> /dev/null; then
    mounted=$folder/small
    about="a full disk"
    head -c 4089 /dev/zero | tr '\0' 'x' > small/c
    printf '\n' >> small/c
    cp small/c before
    head -c 4096 /dev/zero > small/rest
    status=0
    (cd small && "$formail" -D 8192 c -s < ../three > ../out) || status=$?
    [ "$status" -eq 74 ] || fail "$about: status $status"
    cmp -s out none || fail "$about: mails were written"
    { cat before; printf '<a@x>\n'; } | cmp -s - small/c || fail "$about: the cache has other bytes"
    [ ! -e small/c.lock ] || fail "$about: the lock file is left"
    umount small
    mounted=
else
    echo "caches: no small file system can be made here: no full disk tried"
fi

if ! strace -qq -o /dev/null true 2> /dev/null; then
    echo "caches: no strace here, or it may not trace: no calls looked at"
    echo "caches: passed"
    exit 0
fi

# The calls that write to the cache and sync it, one letter each: t for a cut, w for a write, s for a sync.
calls() {
    sed -n 's/^[0-9]* *//; s/^ftruncate(.*/t/p; s/^p\{0,1\}write[v64]*([3-9].*/w/p; s/^f\(data\)\{0,1\}sync(.*/s/p' trace | tr -d '\n'
}
traced() { status=0; strace -f -qq -o trace -e trace=write,pwrite64,writev,fsync,fdatasync,ftruncate "$@" > out || status=$?; }

about="the calls of three new mails"
rm -f c
traced "$formail" -D 8192 c -s < doubles
ended 0 three
[ "$(calls)" = wswsws ] || fail "$about: $(calls)"

about="the calls of mails that are all known"
traced "$formail" -D 8192 c -s < doubles
ended 0 none
[ "$(calls)" = "" ] || fail "$about: $(calls)"

about="the calls where the cache is full before the second mail and before the third one"
rm -f c
traced "$formail" -D 6 c -s < three
ended 0 three
[ "$(calls)" = wstwstws ] || fail "$about: $(calls)"
has '<c@x>\n'

# Runs formail on three mails with these injected errors: `injected INJECTION..`.
injected() {
    errors=()
    for one in "$@"; do errors+=(-e "inject=$one"); done
    status=0
    strace -f -qq -o /dev/null "${errors[@]}" "$formail" -D 8192 c -s < three > out || status=$?
}
about="the first sync fails: the cache that was made is removed"
rm -f c
injected fsync:error=EIO:when=1
ended 74 none
[ ! -e c ] || fail "$about: it stays"

about="the second sync fails: the first identifier stays"
injected fsync:error=EIO:when=2
ended 74 none
has '<a@x>\n'

about="a second run with that cache takes the first mail for a duplicate"
fails "$formail" -D 8192 c -s < three
cat b.mail c.mail > wanted
ended 0 wanted

about="a second run with a new cache loses none"
rm c
fails "$formail" -D 8192 c -s < three
ended 0 three

about="the second sync fails, and the cut back too"
rm c
injected fsync:error=EIO:when=2 ftruncate:error=EIO
ended 74 none
has '<a@x>\n<b@x>\n'

about="the sync of one mail fails: its identifier isn't in the cache, and the next try finds it new"
printf '<a@x>\n' > c
status=0
strace -f -qq -o /dev/null -e inject=fsync:error=EIO "$formail" -D 8192 c < b.mail > out || status=$?
ended 74 none
has '<a@x>\n'
fails "$formail" -D 8192 c < b.mail
ended 1 none
has '<a@x>\n<b@x>\n'

about="a disk that is full at the sync"
printf '<a@x>\n' > c
status=0
strace -f -qq -o /dev/null -e inject=fsync:error=ENOSPC "$formail" -D 8192 c < b.mail > out || status=$?
ended 74 none
has '<a@x>\n'
echo "caches: passed"
