#!/usr/bin/env bash
# A postfix of its own on the loopback hands 57 mails to procmail, by mailbox_command and by a pipe transport: each is
# delivered, deferred or returned as docs/SERVERS.md says, none is lost, and all that is delivered belongs to the user.
# It wants to be root, and postfix installed.
set -eu
. "$(dirname "$0")/servers.bash"
go_apart postfix postconf ip
if ! postconf -d maillog_file > /dev/null 2>&1 || [ -z "$(postconf -dh maillog_file_prefixes 2> /dev/null)" ]; then
    skip "this postfix is older than 3.4 and can't log to a file"
fi
. "$(dirname "$0")/common.bash"
make_user

config=$folder/config
queue=$folder/queue
log=$folder/maillog
started=
mounted=

# Ends postfix and the small file system; each step is bounded.
clean_up() {
    [ -z "$started" ] || timeout 30 postfix -c "$config" stop > /dev/null 2>&1 || true
    [ -z "$mounted" ] || umount "$home/small" 2> /dev/null || umount -l "$home/small" 2> /dev/null || true
    rm -rf "$folder"
}
trap clean_up EXIT
trap 'exit 1' INT TERM HUP

# The user's rcfiles.
mkdir -p "$config" "$queue" "$folder/data" "$home/Mail" "$home/small" "$home"/{pipe,lines}.test.invalid
cat > "$home/.procmailrc" << 'RC'
PATH=$HOME/../bin:/usr/bin:/bin
MAILDIR=$HOME/Mail
DEFAULT=inbox
LOGFILE=log
ADDRESS=$1

:0
* ADDRESS ?? ^^returned^^
{
    :0:
    returned
}

:0
* ADDRESS ?? ^^copy^^
{
    :0 c:
    archive

    :0 c
    | id -un >> who; cat > /dev/null

    :0:
    copied
}

:0
* ADDRESS ?? ^^filter^^
{
    :0 fhw
    | formail -A "X-Filtered: yes"

    :0:
    filtered
}

:0
* ADDRESS ?? ^^maildir^^
maildir/

:0
* ADDRESS ?? ^^full^^
{
    :0:
    ../small/mbox

    # What can't be written there goes nowhere else.
    DEFAULT
    ORGMAIL
}
RC
cat > "$home/broken" << 'RC'
MAILDIR=$HOME/Mail
LOGFILE=log
% no statement
A="a quote that isn't closed
:0:
* (an expression that isn't closed
nowhere
:0 q:
* ! ^Subject: never
repaired
RC
block postfix 6 | sed 's,^PATH=.*,PATH=../bin:/usr/bin:/bin,; s,^LOGFILE=.*,LOGFILE=Mail/log,' > "$home/piped"

# The same without a filter, for a transport that writes no line From.
awk '/^:0 fhw/ { skip = 3 } skip > 0 { skip--; next } 1' "$home/piped" > "$home/unlined"
! grep -q formail "$home/unlined" || fail "the filter is still in the rcfile"

# A file system of 128 kB, which is full where a mail of 300 kB comes; else a folder that the user may not write to.
if mount -t tmpfs -o "size=128k,mode=755" tmpfs "$home/small" 2> /dev/null; then
    mounted=yes
else
    echo "postfix: no small file system can be made here; a folder without write permission stands for it"
fi
printf 'From a@b Thu Jan  1 00:00:00 1970\n\nan older mail\n\n' > "$folder/older"
cp "$folder/older" "$home/small/mbox"
chown -R "$user:$user" "$home"
[ -n "$mounted" ] || { chown root "$home/small"; }

# A postfix of its own. There is no service that could send anything elsewhere.
port=0
for _ in 1 2 3 4 5 6 7 8 9 10; do
    port=$((20000 + RANDOM % 10000))
    (exec 3<> "/dev/tcp/127.0.0.1/$port") 2> /dev/null || break
done
{
    for setting in daemon_directory command_directory meta_directory shlib_directory mail_owner setgid_group; do
        postconf -d "$setting" 2> /dev/null
    done
    cat << CF
compatibility_level = 2
queue_directory = $queue
data_directory = $folder/data
maillog_file = $log
maillog_file_prefixes = $folder
inet_interfaces = 127.0.0.1
inet_protocols = ipv4
myhostname = mail.test.invalid
mydomain = test.invalid
myorigin = test.invalid
mydestination = test.invalid, stock.test.invalid
mynetworks = 127.0.0.0/8
smtpd_relay_restrictions = reject_unauth_destination
smtpd_recipient_restrictions =
relayhost =
default_transport = error:no mail leaves this machine
relay_transport = error:no mail leaves this machine
alias_maps =
alias_database =
local_recipient_maps =
virtual_mailbox_domains = pipe.test.invalid, lines.test.invalid, missing.test.invalid
virtual_mailbox_maps =
virtual_transport = procmail
transport_maps = inline:{missing.test.invalid=no-rcfile:, lines.test.invalid=unlined:, stock.test.invalid=stock:}
forward_path =
recipient_delimiter = +
biff = no
notify_classes =
$(block postfix 2 | sed 's/ DEFAULT=/ LOCKSLEEP=1&/')
procmail_destination_recipient_limit = 1
procmail_time_limit = 9000s
no-rcfile_destination_recipient_limit = 1
unlined_destination_recipient_limit = 1
CF
} > "$config/main.cf"
cat > "$config/master.cf" << CF
127.0.0.1:$port inet n - n - - smtpd
postlog unix-dgram n - n - 1 postlogd
pickup unix n - n 60 1 pickup
cleanup unix n - n - 0 cleanup
qmgr unix n - n 300 1 qmgr
rewrite unix - - n - - trivial-rewrite
bounce unix - - n - 0 bounce
defer unix - - n - 0 bounce
trace unix - - n - 0 bounce
proxymap unix - - n - - proxymap
error unix - - n - - error
retry unix - - n - - error
local unix - n n - - local
stock unix - n n - - local
  -o { $(block postfix 1 | sed "s,procmail -a,$folder/bin/&,") } -o { forward_path = \$home/.forward }
anvil unix - - n - 1 anvil
$(block postfix 4 |
    sed "s,vmail directory=/var/vmail,$user directory=$home,; s,-m /etc/procmail-rc,-m LOCKSLEEP=1 $home/piped,")
unlined unix - n n - - pipe
  flags=Rhu user=$user directory=$home argv=$folder/bin/procmail -t -m LOCKSLEEP=1 $home/unlined \${user} \${domain}
no-rcfile unix - n n - - pipe
  flags=FRhu user=$user directory=$home argv=$folder/bin/procmail -t -m $home/no-such-rcfile
CF
chown "$(postconf -dh mail_owner)" "$folder/data"
started=yes
timeout 60 postfix -c "$config" start > start 2>&1 < /dev/null ||
    fail "postfix wasn't started: $(cat start "$log" 2> /dev/null)"

# One mail over SMTP: its number, its recipient and the size of its body.
answered() {
    local line
    while IFS= read -r -t 30 -u 3 line; do
        case $line in
            "$1 "*) return 0 ;;
            "$1-"*) ;;
            *) fail "the server says $line" ;;
        esac
    done
    fail "the server doesn't answer"
}
connected() {
    { exec 3<> "/dev/tcp/127.0.0.1/$port"; } 2> /dev/null
}
sent=0
send() {
    sent=$((sent + 1))
    printf 'MAIL FROM:<%s+returned@test.invalid>\r\n' "$user" >&3
    answered 250
    printf 'RCPT TO:<%s>\r\n' "$1" >&3
    answered 250
    printf 'DATA\r\n' >&3
    answered 354
    {
        printf 'From: sender@test.invalid\r\nSubject: %s\r\n\r\nmessage %s\r\nFrom here on\r\n' "$sent" "$sent"
        [ "$2" -eq 0 ] || head -c "$2" /dev/zero | tr '\0' 'x' | fold -w 70 | sed 's/$/\r/'
        printf '\r\n.\r\n'
    } >&3
    answered 250
}
# send_all COUNT RECIPIENT SIZE; the numbers of the first and the last go into $first and $last.
send_all() {
    first=$((sent + 1))
    for _ in $(seq "$1"); do send "$2" "$3"; done
    last=$sent
}

# has FILE..: each mail from $first to $last is in these files, once in each, and nowhere else. A maildir is its folder.
has() {
    (cd "$home" && grep -rx "message [0-9]*" Mail small mbox ./*.test.invalid 2> /dev/null || true) |
        sed 's,^\./,,; s,/new/[^:]*:,/new:,; s/message //' | awk -F: -v first="$first" -v last="$last" \
        '$2 >= first && $2 <= last { print $2 ":" $1 }' | sort > found
    for number in $(seq "$first" "$last"); do printf "$number:%s\n" "$@"; done | sort | cmp -s - found
}
# told STATUS RECIPIENT COUNT CODE: so many of the recipient's mails had this status, with this code of the log.
told() {
    [ "$(grep -c "to=<$2>.*dsn=$4.*status=$1" "$log")" -eq "$3" ]
}
queued() {
    [ "$(find "$queue"/{incoming,active,deferred,hold,corrupt} -type f 2> /dev/null | wc -l)" -eq "$1" ]
}
wrong() {
    fail "$1: $(tail -n 5 "$log"; ls -R "$home"; tail -n 5 "$home/Mail/log" 2> /dev/null)"
}

within 30 connected || wrong "no connection"
answered 220
printf 'HELO localhost\r\n' >&3
answered 250

send_all 10 "$user@test.invalid" 0
within 60 has Mail/inbox || wrong "the rcfile's default mailbox"
send_all 5 "$user+copy@test.invalid" 0
within 60 has Mail/archive Mail/copied || wrong "a copy"
[ "$(sort "$home/Mail/who" | uniq -c | tr -s ' ')" = " 5 $user" ] || wrong "the user of a program"
send_all 5 "$user+filter@test.invalid" 0
within 60 has Mail/filtered || wrong "a filter"
[ "$(grep -cx 'X-Filtered: yes' "$home/Mail/filtered")" -eq 5 ] || wrong "a filter's field"
send_all 5 "$user+maildir@test.invalid" 0
within 60 has Mail/maildir/new || wrong "a maildir"
[ "$(ls "$home/Mail/maildir/new" | wc -l)" -eq 5 ] || wrong "a maildir's files"
send_all 5 "Anyone@pipe.test.invalid" 0
within 60 has pipe.test.invalid/anyone/new || wrong "a pipe transport"
[ "$(head -qn 1 "$home"/pipe.test.invalid/anyone/new/* | cut -d ' ' -f 1 | sort -u)" = Return-Path: ] ||
    wrong "the first lines by a pipe transport"
send_all 3 "Anyone@lines.test.invalid" 0
within 60 has lines.test.invalid/anyone/new || wrong "a pipe transport without the flag F"
[ "$(head -qn 1 "$home"/lines.test.invalid/anyone/new/* | cut -d ' ' -f 1 | sort -u)" = Return-Path: ] ||
    wrong "the first lines by a pipe transport without the flag F"

# Returned: the sender has the notices, with the mail in them.
send_all 5 "_refused@pipe.test.invalid" 0
within 60 has Mail/returned || wrong "EXITCODE=67"
told bounced _refused@pipe.test.invalid 5 5.1.1 || wrong "the status of EXITCODE=67"
send_all 2 "anyone@missing.test.invalid" 0
within 60 has Mail/returned || wrong "a filter's rcfile that is missing"
told bounced anyone@missing.test.invalid 2 5.3.0 || wrong "the status of an rcfile that is missing"

# An rcfile with mistakes: what is understood of it counts, and the rest is in the log.
mv "$home/.procmailrc" "$home/good"
mv "$home/broken" "$home/.procmailrc"
send_all 5 "$user+a@test.invalid" 0
within 60 has Mail/repaired || wrong "a broken rcfile"
for line in 'Skipped "% no statement"' 'Skipped "A="a quote that isn'\''t closed"' 'Skipped ":0 q:"' \
    'Defective condition "(an expression that isn'\''t closed"'; do
    grep -qxF "procmail: $line" "$home/Mail/log" || wrong "a broken rcfile's log lacks $line"
done
rm "$home/.procmailrc"
send_all 3 "$user@test.invalid" 0
within 60 has mbox || wrong "no rcfile at all"
# Debian's own mailbox_command names no DEFAULT: without an rcfile the mail is returned.
send_all 2 "$user@stock.test.invalid" 0
within 60 has mbox || wrong "no rcfile, by the stock line"
told bounced "$user@stock.test.invalid" 2 5.2.0 || wrong "the status of the stock line without an rcfile"
mv "$home/good" "$home/.procmailrc"

# .forward takes the place of mailbox_command.
forward_line postfix > "$home/.forward"
chown "$user:$user" "$home/.forward"
send_all 2 "$user@stock.test.invalid" 0
within 60 has Mail/inbox || wrong "a mail by .forward"
grep -q "to=<$user@stock.test.invalid>.*status=sent (delivered to command: .* || exit 75)" "$log" ||
    wrong "the log of .forward"
rm "$home/.forward"

# A full disk: the mails wait, the mailbox is as it was; and once there is room, they are delivered.
send_all 5 "$user+full@test.invalid" 300000
within 60 told deferred "$user+full@test.invalid" 5 4.3.0 || wrong "a full disk"
within 60 queued 5 || wrong "the queue behind a full disk"
cmp -s "$home/small/mbox" older || wrong "the mailbox on a full disk"
[ "$(ls "$home/small")" = mbox ] || wrong "the folder on a full disk"
if [ -n "$mounted" ]; then
    mount -o remount,size=8m "$home/small"
else
    chown "$user" "$home/small"
fi
postfix -c "$config" flush > flush 2>&1 || wrong "the queue isn't tried again: $(cat flush)"
within 60 has small/mbox || wrong "a disk with room"

printf 'QUIT\r\n' >&3
answered 221
exec 3>&-
within 60 queued 0 || wrong "the queue at the end"
[ "$sent" -eq 57 ] || fail "$sent mails were sent"
# Each mailbox has as many mails as it was sent, each with its line `From ` and with the other one escaped.
for pair in Mail/inbox:12 Mail/archive:5 Mail/copied:5 Mail/filtered:5 Mail/repaired:5 mbox:5 small/mbox:6; do
    [ "$(grep -c '^From ' "$home/${pair%:*}")" -eq "${pair#*:}" ] || wrong "the mails of ${pair%:*}"
done
! grep -q 'bytes left' "$home/Mail/log" || wrong "the user's log tells of bytes that are left"
[ -z "$(find "$home" -name '*.lock')" ] || wrong "a lock file is left"
all_users || wrong "these belong to somebody else: $(find "$home" ! -user "$user" -o ! -group "$user")"
echo "postfix: postfix $(postconf -dh mail_version) got 57 mails: delivered as the user, deferred, returned; none lost"
