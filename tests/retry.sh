#!/usr/bin/env bash
# Duplicates and a mail server that tries again: the first delivery of a mail fails, and the next one keeps it. The
# recipes are those of procmailex(5) and of examples/duplicates.rc. The recipe that the page warns of loses the mail.
set -eu
. "$(dirname "$0")/common.bash"
printf 'From a@b Thu Jan  1 00:00:00 1970\nMessage-ID: <1@b>\nSubject: hi\n\nhello\n' > mail
printf 'From a@b Thu Jan  1 00:00:00 1970\nSubject: without\n\nhello\n' > without

# The displays with recipes in the page's section on duplicates: page.1, page.2.
awk '/^\.S[hs] / { here = ($0 == ".Ss Duplicates") }
    here && /^\.Bd -literal/ { inside = 1; count++; next }
    /^\.Ed/ { inside = 0 }
    inside { print > ("page." count) }' "$top/man/procmailex.5"
sed -i 's/\\(ha/^/g; s/\\(ga/`/g; s/\\-/-/g; s/\\&//g; s/\\e/\\/g' page.*
sed -i "s/\\\\(aq/'/g" page.*
[ "$(ls page.* | wc -l)" -eq 2 ] || fail "the page has other recipes on duplicates than two"
printf ':0 Wh\n| formail -D 8192 msgid.cache\n' > old

# deliver MAIL: by ./rc, in the home directory; the status is in $status. As a mail server would, with -t.
deliver() {
    status=0
    env -i HOME="$home" LOGNAME=joe PATH="$programs:/usr/bin:/bin" "$program" -t MAILDIR="$home" LOGFILE=log \
        DEFAULT="$home/later/inbox" ORGMAIL= "$home/rc" < "$folder/$1" || status=$?
}

# begin RCFILE: a new home directory, in which the directory of the default mailbox is missing.
begin() {
    about=$1
    home=$folder/homes/$1
    mkdir -p "$home"
    cp "$1" "$home/rc"
}

# has FILE COUNT: so many mails with the subject `hi` are in the file.
has() {
    local count
    count=$(grep -c '^Subject: hi' "$home/$1" 2> /dev/null || true)
    [ "${count:-0}" -eq "$2" ] || fail "$about: $1 has the mail ${count:-0} times, not $2 times: $(cat "$home/log")"
}

# fails: the delivery fails, and the server is to try again.
fails() {
    deliver mail
    [ "$status" -eq 75 ] || fail "$about: a delivery that can't be made gave status $status"
}

# succeeds MAIL: its delivery ends with 0.
succeeds() {
    deliver "$1"
    [ "$status" -eq 0 ] || fail "$about: $1 gave status $status: $(cat "$home/log")"
}

# The page's first recipe, and the example: the retry delivers the mail once, and a duplicate is dropped.
sed -e '/^MAILDIR=/d' -e '/^DEFAULT=/d' -e '/^LOGFILE=/d' -e '/^PATH=/d' -e 's|/Mail/msgid|/msgid|' \
    "$top/examples/duplicates.rc" > example
for rc in page.1 example; do
    begin "$rc"
    fails
    fails
    mkdir "$home/later"
    succeeds mail
    has later/inbox 1
    succeeds mail
    succeeds mail
    has later/inbox 1
    for mail in without without; do succeeds "$mail"; done
    [ "$(grep -c '^Subject: without' "$home/later/inbox")" -eq 2 ] ||
        fail "$about: a mail without Message-ID was dropped"
    [ "$(cat "$home/msgid.cache")" = '<1@b>' ] || fail "$about: the cache is $(cat "$home/msgid.cache")"
done

# A refusal by EXITCODE isn't a delivery: the cache gets nothing.
{ cat page.1; printf 'EXITCODE=67\n:0\n/dev/null\n'; } > refusing
begin refusing
deliver mail
[ "$status" -eq 67 ] || fail "$about: the status is $status"
[ ! -s "$home/msgid.cache" ] || fail "$about: the cache is $(cat "$home/msgid.cache")"

# A cache that can't be read or written to drops nothing, and stops no delivery.
begin page.1
rm -rf "$home" && mkdir -p "$home/later" "$home/msgid.cache" && cp page.1 "$home/rc"
succeeds mail
succeeds mail
has later/inbox 2

# The page's second recipe: the retry keeps the mail in `duplicates`.
begin page.2
fails
mkdir "$home/later"
succeeds mail
has duplicates 1
[ ! -e "$home/later/inbox" ] || fail "$about: the default mailbox has it too"

# The recipe of older pages: the retry ends with 0, and the mail is nowhere.
begin old
fails
mkdir "$home/later"
succeeds mail
has later/inbox 0
! grep -rq '^Subject: hi' "$home" --include='*' --exclude=log ||
    fail "$about: the mail isn't lost, so the page's warning is wrong"
echo "retry: the recipes for duplicates keep a mail whose first delivery fails; the old recipe loses it, as is said"
