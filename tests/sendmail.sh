#!/usr/bin/env bash
# sendmail, with Debian's sendmail.mc and the lines of docs/SERVERS.md, runs procmail as the user: this looks at who
# owns the mailboxes and what a program of the rcfile writes, not only at the arrival. Without the second line the
# rcfile runs as root. What sendmail returns and what it keeps in the queue is as the page says.
set -eu
. "$(dirname "$0")/servers.bash"
go_apart sendmail m4 setpriv ip
. "$(dirname "$0")/common.bash"
stock=/usr/share/sendmail/cf/debian/sendmail.mc
[ -f "$stock" ] && sendmail -d0.1 -bt < /dev/null 2> /dev/null | grep -q '^Version 8' ||
    skip "this isn't Debian's sendmail with its package sendmail-cf"
make_user
mount -t tmpfs tmpfs /var/lib/sendmail
printf 'hosts files\naliases files\n' > switch

# configure NAME LINES: NAME.cf is made from the stock file with these lines before its mailers, and a queue of its own.
configure() {
    mkdir "queue-$1"
    chmod 700 "queue-$1"
    {
        sed '/^MAILER_DEFINITIONS/,$d' "$stock"
        printf 'define(`%s'\'', `%s'\'')dnl\n' QUEUE_DIR "$folder/queue-$1" confSERVICE_SWITCH_FILE "$folder/switch" \
            confDOMAIN_NAME mail.test.invalid ALIAS_FILE "$folder/aliases" 
        printf 'MASQUERADE_AS(`mail.test.invalid'\'')dnl\n%s\nMAILER_DEFINITIONS\nMAILER(`local'\'')dnl\n' "$2"
    } > "$1.mc"
    m4 "$1.mc" > "$1.cf" 2> said || fail "m4 ends with $?: $(cat said)"
    : > aliases
    sendmail -C "$folder/$1.cf" -bi > said 2>&1 || fail "newaliases ends with $?: $(cat said)"
}
# send NAME SUBJECT: by this configuration; its status goes into $status, and what waits then into $waiting.
send() {
    status=0
    printf 'Subject: %s\n\nbody\nFrom here on\n' "$2" |
        timeout 60 sendmail -C "$folder/$1.cf" -oi -odi -f "$user@mail.test.invalid" "$user+ext@mail.test.invalid" \
            > said 2>&1 || status=$?
    waiting=$(find "queue-$1" -name 'qf*' | wc -l)
}

configure ours "$(block sendmail 1)"
grep -q '^Mlocal.*F=[^,]*S' ours.cf && fail "the local mailer still has the flag S: $(grep '^Mlocal' ours.cf)"
send ours plain
has "$home/mbox" 1 || wrong "a plain mail by our lines"
grep -q '^>From here' "$home/mbox" || wrong "the mail isn't escaped"
send ours program
ran_as_user || wrong "a program of the rcfile by our lines: $(cat "$home/who")"
send ours refused
[ "$waiting" -eq 0 ] && has "$home/mbox" 2 || wrong "the notice of a refused mail"
send ours full
[ "$waiting" -eq 1 ] || wrong "a mailbox that can't be written to, status $status"
all_users || wrong "files of somebody else by our lines"

# The first line alone: the page warns of it.
rm -f "$home"/mbox "$home"/who
configure first "$(block sendmail 1 | head -n 1)"
grep -q '^Mlocal.*F=[^,]*S' first.cf || fail "the stock file has no flag S any more: $(grep '^Mlocal' first.cf)"
send first program
[ "$(head -n 1 "$home/who")" = root ] || wrong "the first line alone doesn't run the rcfile as root any more"

# Debian's own line, with this procmail as /usr/bin/procmail: each mail is returned.
if [ -x /usr/sbin/sensible-mda ] && [ -e /usr/bin/procmail ]; then
    rm -f "$home"/mbox "$home"/who "$home"/log
    mount --bind "$folder/bin/procmail" /usr/bin/procmail
    configure stock ""
    send stock plain
    [ "$status" -eq 64 ] && [ "$waiting" -eq 0 ] && [ ! -e "$home/mbox" ] || wrong "the stock line, status $status"
    stock_line="; the stock line returns mails"
fi

# .forward, with Debian's own local mailer. Without HOME and LOGNAME the mail goes elsewhere, and the status is 0.
rm -f "$home"/mbox "$home"/who "$home"/log
configure forward ""
chmod 755 "$home"
forward_line sendmail > "$home/.forward"
chown "$user:$user" "$home/.forward"
send forward program
ran_as_user || wrong "a program of the rcfile by .forward: $(cat said)"
send forward full
[ "$waiting" -eq 1 ] || wrong "a mailbox that can't be written to by .forward, status $status"
all_users || wrong "files of somebody else by .forward"
rm -f "$home/who"
chmod 1777 /var/mail
sed -i 's/HOME=[^ ]* LOGNAME=[^ ]* //' "$home/.forward"
send forward program
[ "$status" -eq 0 ] && [ ! -e "$home/who" ] && [ -s /var/mail/nobody ] || wrong ".forward without HOME and LOGNAME"
version=$(sendmail -d0.1 -bt < /dev/null | sed -n 's/^Version //p')
echo "sendmail: sendmail $version delivers as the user${stock_line:-}"
