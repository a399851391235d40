#!/usr/bin/env bash
# OpenSMTPD, with the action of docs/SERVERS.md, runs procmail as the user: this looks at who owns the mailboxes and
# what a program of the rcfile writes, not only at the arrival. What OpenSMTPD keeps in its queue is as the page says.
set -eu
. "$(dirname "$0")/servers.bash"
go_apart smtpd smtpctl setpriv ip
. "$(dirname "$0")/common.bash"
make_user

mount -t tmpfs -o mode=711 tmpfs /var/spool/smtpd
log=$folder/maillog
# start NAME LINES: smtpd runs with these lines, which end where `local` mails go.
start() {
    printf 'listen on 127.0.0.1\n%s\n' "$2" > "$1.conf"
    smtpd -n -f "$1.conf" > said 2>&1 || fail "smtpd refuses the lines: $(cat said)"
    smtpd -d -f "$1.conf" > "$log" 2>&1 < /dev/null &
    server=$!
    within 20 smtpctl show status > /dev/null 2>&1 || fail "smtpd isn't started: $(cat "$log")"
}
stop() {
    kill "$server"
    wait "$server" || true
}
# send SUBJECT RESULT: one mail, and the result that the log has of it.
sent=0
send() {
    sent=$((sent + 1))
    printf 'Subject: %s\n\nbody\nFrom here on\n' "$1" |
        (exec -a sendmail smtpctl -f "$user@localhost" "$user@localhost") > said 2>&1 ||
        fail "no mail can be sent: $(cat said)"
    within 30 results "$sent" "$2" || wrong "the mail $1 has not the result $2"
}
results() {
    [ "$(grep -a ' mda delivery .*to=<'"$user"'@' "$log" | grep -cav 'from=<>')" -eq "$1" ] &&
        grep -a ' mda delivery ' "$log" | grep -av 'from=<>' | tail -n 1 | grep -aq "result=$2"
}

start ours "$(block OpenSMTPD 1)"
send plain Ok
has "$home/mbox" 1 || wrong "a plain mail"
grep -q '^>From here' "$home/mbox" || wrong "the mail isn't escaped"
grep -q "^From $user@localhost " "$home/mbox" || wrong "the sender isn't in the line From"
send program Ok
ran_as_user || wrong "a program of the rcfile: $(cat "$home/who")"
send full TempFail
send refused TempFail
all_users || wrong "files of somebody else"
stop

# .forward, with Debian's own action.
rm -f "$home"/mbox "$home"/who
sent=0
forward_line OpenSMTPD > "$home/.forward"
chown "$user:$user" "$home/.forward"
: > aliases
start forward "table aliases file:$folder/aliases
$(printf '%s\n' 'action "local" maildir alias <aliases>' 'match for local action "local"')"
send program Ok
ran_as_user || wrong "a program of the rcfile by .forward"
send full TempFail
all_users || wrong "files of somebody else by .forward"
stop
echo "opensmtpd: $(smtpd -h 2>&1 | sed -n 's/^version: //p') delivers as the user"
