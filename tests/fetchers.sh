#!/usr/bin/env bash
# fetchmail, getmail, mpop and mbsync hand the mails of a dovecot on the loopback to procmail, by the lines of
# docs/WITHOUT_A_SERVER.md without their TLS. What is delivered belongs to the user, and a mail that can't be delivered
# stays on the server and comes at the next run. Each that isn't installed is left out, with a line that says so.
set -eu
. "$(dirname "$0")/servers.bash"
go_apart dovecot setpriv ip
. "$(dirname "$0")/common.bash"
make_user
for protocol in pop3 imap; do
    [ -x "/usr/lib/dovecot/$protocol-login" ] || skip "dovecot has no $protocol here"
done
log=$folder/maillog

# A dovecot with one account, whose mails are in $store. They belong to another user than the one who fetches them.
store=$folder/box/Maildir
mkdir -p "$store"/{new,cur,tmp} run
cat > dovecot.conf << CONF
protocols = imap pop3
base_dir = $folder/run
log_path = $log
ssl = no
disable_plaintext_auth = no
first_valid_uid = 1
passdb {
  driver = static
  args = password=secret
}
userdb {
  driver = static
  args = uid=mail gid=mail home=$folder/box
}
mail_location = maildir:~/Maildir
service imap-login {
  inet_listener imap {
    address = 127.0.0.1
    port = 1143
  }
  inet_listener imaps {
    port = 0
  }
}
service pop3-login {
  inet_listener pop3 {
    address = 127.0.0.1
    port = 1110
  }
  inet_listener pop3s {
    port = 0
  }
}
CONF
dovecot -F -c "$folder/dovecot.conf" > said 2>&1 < /dev/null &
for port in 1110 1143; do
    within 20 eval "(exec 3<> /dev/tcp/127.0.0.1/$port) 2> /dev/null" ||
        fail "dovecot isn't started: $(cat said "$log")"
done

# The rcfile: the mail with the number 2 can't be delivered until there is a file `room`.
cat > "$home/.procmailrc" << 'RC'
PATH=/usr/bin:/bin
LOGFILE=$HOME/log
DEFAULT=$HOME/mbox

:0 c
| { id -un; id -gn; echo "$HOME $LOGNAME"; cat > /dev/null; } > "$HOME/who"

:0
* ^Subject: 2
* ! ? test -e "$HOME/room"
{
    DEFAULT=/no/such/mailbox
    ORGMAIL
}
RC
chown "$user:$user" "$home/.procmailrc"

# fill: three mails on the server, and nothing in the home directory.
fill() {
    rm -rf "$home"/mbox "$home"/log "$home"/who "$home"/room "$home"/incoming "$folder"/box/Maildir
    mkdir -p "$store"/{new,cur,tmp}
    for number in 1 2 3; do
        printf 'Return-Path: <s%s@example.org>\nFrom: s%s@example.org\nSubject: %s\n\nbody\nFrom here on\n' \
            "$number" "$number" "$number" > "$store/new/$number.1.x"
    done
    chown -R mail:mail "$folder/box"
}
left() {
    find "$store/new" "$store/cur" -type f | wc -l
}
numbers() {
    sed -n 's/^Subject: //p' "$home/mbox" | paste -sd ' '
}
# fetch COMMAND..: as the user, in the home directory.
fetch() {
    status=0
    (cd "$home" && as_user timeout 60 "$@") > said 2>&1 < /dev/null || status=$?
}
# try NAME LEFT FIRST COMMAND..: the first run delivers these numbers and leaves so many mails on the server; with room
# the second one delivers the rest.
try() {
    fill
    fetch "${@:4}"
    [ "$(left)" -eq "$2" ] && [ "$(numbers)" = "$3" ] || wrong "$1 left $(left) mails, status $status: $(cat said)"
    as_user touch "$home/room"
    fetch "${@:4}"
    [ "$(left)" -eq "${left_last:-0}" ] && [ "$(numbers | tr ' ' '\n' | sort | paste -sd ' ')" = "1 2 3" ] ||
        wrong "$1 left $(left) mails at its second run, status $status: $(cat said)"
    is_users "$home/mbox" && ran_as_user && all_users || wrong "what $1 delivered belongs to somebody else"
    [ "$(grep -c '^>From here' "$home/mbox")" -eq 3 ] || wrong "the mails of $1 aren't escaped"
    tried="${tried:-}${tried:+, }$1"
}
# has_command COMMAND: or a line says that it is left out.
has_command() {
    command -v "$1" > /dev/null || { echo "fetchers: $1 isn't installed: left out"; return 1; }
}
page=WITHOUT_A_SERVER.md

if has_command fetchmail; then
    block fetchmail 1 "$page" |
        sed "s/pop3/pop3 port 1110/; s/pop.example.org/localhost/; s/ ssl$//; s/\"joe\"/\"$user\"/" \
            > "$home/.fetchmailrc"
    chmod 600 "$home/.fetchmailrc"
    chown "$user:$user" "$home/.fetchmailrc"
    try fetchmail 1 '1 3' fetchmail --nosyslog --sslproto ''
    grep -q '^From s1@example.org ' "$home/mbox" || wrong "fetchmail's sender: $(grep '^From ' "$home/mbox")"
    rm -f "$home"/.fetch*
fi

if has_command getmail; then
    mkdir -p "$home/.config/getmail"
    block getmail 1 "$page" | sed "s/pop.example.org/localhost\\nport = 1110/; s/SSLRetriever/Retriever/" \
        > "$home/.config/getmail/getmailrc"
    chown -R "$user:$user" "$home/.config"
    try getmail 1 '1 3' getmail
    grep -q '^From s1@example.org ' "$home/mbox" || wrong "getmail's sender: $(grep '^From ' "$home/mbox")"

    # A line on standard error: with the page's setting it doesn't matter, without it the mails come again and again.
    cp "$home/.procmailrc" good
    sed -i '/^LOGFILE/d; 1i % no statement' "$home/.procmailrc"
    fill
    as_user touch "$home/room"
    fetch getmail
    [ "$(left)" -eq 0 ] && [ "$(numbers)" = "1 2 3" ] || wrong "getmail with a log line on standard error: $(cat said)"
    sed -i '/^ignore_stderr/d' "$home/.config/getmail/getmailrc"
    fill
    as_user touch "$home/room"
    fetch getmail
    fetch getmail
    [ "$(left)" -eq 3 ] && [ "$(numbers)" = "1 2 3 1 2 3" ] || wrong "getmail without ignore_stderr: $(cat said)"
    cp good "$home/.procmailrc"
    rm -rf "$home/.config"
fi

if has_command mpop; then
    block mpop 1 "$page" |
        sed "s/pop.example.org/localhost\\nport 1110/; s/tls on/tls off\\nauth user/; /tls_starttls/d" > "$home/.mpoprc"
    chmod 600 "$home/.mpoprc"
    chown "$user:$user" "$home/.mpoprc"
    try mpop 3 1 mpop -a
    grep -q '^From s1@example.org ' "$home/mbox" || wrong "mpop's sender: $(grep '^From ' "$home/mbox")"
    rm -rf "$home/.mpoprc" "$home"/.mpop*
fi

if has_command mbsync; then
    block mbsync 1 "$page" |
        sed "s/imap.example.org/localhost\\nPort 1143\\nAuthMechs LOGIN/; s/IMAPS$/None/" > "$home/.mbsyncrc"
    chmod 600 "$home/.mbsyncrc"
    block mbsync 2 "$page" > "$home/fetch"
    chown "$user:$user" "$home/.mbsyncrc" "$home/fetch"
    left_last=3
    try mbsync 3 '1 3' sh fetch
    [ -z "$(find "$home/incoming/new" "$home/incoming/cur" -type f)" ] || wrong "mails are left in incoming"
fi
[ -n "${tried:-}" ] || skip "no program that fetches mails is installed"
echo "fetchers: $tried: delivered as the user, and what fails stays on the server"
