#!/usr/bin/env bash
# exim, with Debian's configuration and the router and the transport of docs/SERVERS.md, runs procmail as the user: this
# looks at who owns the mailboxes and what a program of the rcfile writes, not only at the arrival. What exim returns
# and what it keeps in the queue is as the page says, also by Debian's own router and transport.
set -eu
. "$(dirname "$0")/servers.bash"
go_apart exim4 update-exim4.conf setpriv ip
. "$(dirname "$0")/common.bash"
make_user

# Debian's configuration for local mails, with a spool, a log and a hints database of its own.
mkdir etc spool
cp -r /etc/exim4/. etc/
cat > etc/update-exim4.conf.conf << 'CONF'
dc_eximconfig_configtype='local'
dc_other_hostnames=''
dc_local_interfaces='127.0.0.1'
dc_use_split_config='false'
dc_hide_mailname=''
dc_mailname_in_oh='true'
dc_localdelivery='mail_spool'
CONF
rm -f etc/exim4.conf
mount --bind etc /etc/exim4
update-exim4.conf -o "$folder/stock.conf" > said 2>&1 || fail "update-exim4.conf ends with $?: $(cat said)"
chown -R "$(stat -c %u:%g /var/spool/exim4)" spool
mount --bind spool /var/spool/exim4
grep -q '^procmail:' stock.conf && grep -q '^procmail_pipe:' stock.conf ||
    fail "Debian's configuration is another one now"

# configure NAME: this configuration is exim's, with a log of its own and an empty queue.
configure() {
    {
        printf 'log_file_path = %s/%%slog\nqueue_only = false\n' "$folder/spool"
        cat "$1.conf"
    } > etc/exim4.conf
    chmod 644 etc/exim4.conf
    find spool -type f -delete
}
# send SUBJECT: what waits then goes into $waiting.
send() {
    printf 'Subject: %s\n\nbody\nFrom here on\n' "$1" |
        timeout 60 exim4 -odf -oi -f "$user@localhost" "$user@localhost" > said 2>&1 ||
        wrong "exim ends with $?: $(cat said)"
    waiting=$(exim4 -bpc)
    cp spool/mainlog maillog
}

# Debian's own lines, with this procmail as /usr/bin/procmail and no other DEFAULT: what has no recipe waits for ever.
if [ -e /usr/bin/procmail ]; then
    mount --bind "$folder/bin/procmail" /usr/bin/procmail
    configure stock
    send plain
    grep -q 'defer (0): Child process of procmail_pipe transport returned 73' maillog || wrong "the stock lines"
    [ "$waiting" -eq 1 ] || wrong "the queue of the stock lines has $waiting"
    send program
    ran_as_user || wrong "a program of the rcfile by the stock lines"
    rm -f "$home/who" "$home/log"
    stock_lines="; the stock lines keep a mail without a recipe for ever"
fi

# The page's router and transport in place of Debian's.
router=$(block exim 1)
transport=$(block exim 2)
cp etc/exim4.conf.template template
ROUTER=$router TRANSPORT=$transport awk '
    /^procmail:/ { print ENVIRON["ROUTER"]; away = 1 }
    /^procmail_pipe:/ { print ENVIRON["TRANSPORT"]; away = 1 }
    away && /^$/ { away = 0 }
    !away' template > etc/exim4.conf.template
rm -f etc/exim4.conf
update-exim4.conf -o "$folder/ours.conf" > said 2>&1 || fail "update-exim4.conf ends with $?: $(cat said)"
configure ours
send plain
has "$home/mbox" 1 || wrong "a plain mail"
grep -q '^>From here' "$home/mbox" || wrong "the mail isn't escaped"
send program
ran_as_user || wrong "a program of the rcfile: $(cat "$home/who")"
send refused
grep -q '\*\* .*returned 67' maillog && [ "$waiting" -eq 0 ] && has "$home/mbox" 2 ||
    wrong "the notice of a refused mail"
send full
grep -q '== .*returned 73' maillog && [ "$waiting" -eq 1 ] || wrong "a mailbox that can't be written to"
all_users || wrong "files of somebody else"

# .forward, by Debian's own router for it.
rm -f "$home"/mbox "$home"/who
forward_line exim > "$home/.forward"
chown "$user:$user" "$home/.forward"
send program
ran_as_user || wrong "a program of the rcfile by .forward"
send full
grep -q '== .*returned 75' maillog && [ "$waiting" -eq 2 ] || wrong "a mailbox that can't be written to, by .forward"
all_users || wrong "files of somebody else by .forward"

rm "$home/.procmailrc" "$home/.forward"
send plain
[ "$(stat -c %U "/var/mail/$user")" = "$user" ] || wrong "a mail for a user without an rcfile"
echo "exim: exim $(exim4 -bV | sed -n 's/^Exim version \([^ ]*\).*/\1/p') delivers as the user${stock_lines:-}"
