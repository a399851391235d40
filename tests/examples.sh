#!/usr/bin/env bash
# Each rcfile of examples/ over a few mails: which file got which mail byte for byte, what the log says, and the status.
# Where procmail 3.22 is installed, the same mails give the same files there.
set -eu
. "$(dirname "$0")/common.bash"
examples=$top/examples
mails=$folder/mails
mkdir "$mails" stand-ins

# mail NAME SENDER LINE..: a mail with these lines behind its line `From `.
mail() {
    { echo "From $2 Thu Jan  1 00:00:00 1970"; printf '%s\n' "${@:3}"; } > "$mails/$1"
}

# with_field NAME FIELD: the mail with this field at the end of its head, as NAME.FIELD's first word.
with_field() {
    awk -v field="$2" '!ended && $0 == "" { print field; ended = 1 } { print }' "$mails/$1" > "$mails/$3"
}

# The stand-ins: a spam filter that ends with 3 at the word `crash`, and a mail system that refuses all once told so.
cat > stand-ins/spamc << 'SCRIPT'
#!/bin/sh
cat > "$HOME/asked"
if grep -q crash "$HOME/asked"; then echo 'half a mail'; exit 3; fi
if grep -q money "$HOME/asked"; then answer=Yes; else answer=No; fi
awk -v field="X-Spam-Status: $answer" '!ended && $0 == "" { print field; ended = 1 } { print }' "$HOME/asked"
SCRIPT
cat > stand-ins/sendmail << 'SCRIPT'
#!/bin/sh
if [ -e "$HOME/refuse" ]; then cat > /dev/null; exit 69; fi
{ echo "$*"; cat; echo '--'; } >> "$HOME/sent"
SCRIPT
chmod +x stand-ins/*

# begin EXAMPLE FOLDER..: a new home folder with this example as its rcfile, and these folders in it.
begin() {
    example=$1
    home=$folder/$agent/$1
    mkdir -p "$home/bin"
    cp "$examples/$1.rc" "$home/.procmailrc"
    cp stand-ins/* "$home/bin/"
    [ "$agent" = 3.22 ] || cp "$programs/formail" "$home/bin/"
    for made in "${@:2}"; do mkdir "$home/$made"; done
}

# deliver MAIL..: each ends with status 0, and nothing is said on standard error. 3.22 wants HOME and LOGNAME as words,
# and doesn't wait for its programs: `$(..)` does, since they have its output as descriptor 9.
deliver() {
    local mail status known=("HOME=$home" LOGNAME=joe)
    for mail in "$@"; do
        status=$(
            (cd "$home" && exec env -i "${known[@]}" "$delivers" "${known[@]}" "SENDMAIL=$home/bin/sendmail" \
                "SPAMFILTER=$home/bin/spamc" "$home/.procmailrc") < "$mails/$mail" 9>&1 > /dev/null 2> said
            echo $?
        )
        [ "$status" -eq 0 ] || wrong "$mail gave status $status: $(cat said)"
        [ "$agent" = 3.22 ] || [ ! -s said ] || wrong "$mail said $(cat said)"
    done
}

wrong() {
    fail "$example.rc with $agent: $1"
}

# has FILE MAIL..: the mailbox is these mails, each with an empty line behind it.
has() {
    for mail in "${@:2}"; do cat "$mails/$mail"; echo; done | cmp -s - "$home/$1" || wrong "$1 is $(cat "$home/$1")"
}

# says FILE TEXT: the file has this text and no more.
says() {
    [ "$(cat "$home/$1")" = "$2" ] || wrong "$1 is $(cat "$home/$1")"
}

# only FILE..: beside the rcfile, the stand-ins and the log these files are there, and no lock file or other one.
only() {
    local found
    found=$(cd "$home" && find . -type f ! -path './bin/*' ! -name .procmailrc ! -name log ! -name asked | sort)
    [ "$found" = "$(printf './%s\n' "$@" | sort)" ] || wrong "there are $found"
}

# abstract MAIL FOLDER: what the log says of a mail that went to a mailbox, with an empty line behind it.
abstract() {
    printf '%s\n Subject: %s\n  Folder: %s %s\n' "$(head -n 1 "$mails/$1")" \
        "$(sed -n '/^$/q; s/^Subject: //p' "$mails/$1")" "$2" $(($(wc -c < "$mails/$1") + 1))
}

# logged FILE TEXT: the log; that of 3.22 has other words.
logged() {
    [ "$agent" = 3.22 ] || says "$1" "$2"
}

mail plain ann@x.example 'To: joe@example.org' 'Subject: plain' '' 'hello'
mail short bob@x.example 'To: joe@example.org' 'Subject: short' '' 'hi'
mail quoting ann@x.example 'To: joe@example.org' 'Subject: a line to escape' '' 'hello' 'From here on' ' From here not'
sed 's/^From here/>&/' "$mails/quoting" > "$mails/quoting.escaped"

one_mailbox() {
    begin one-mailbox
    deliver plain quoting
    has mbox plain quoting.escaped
    only mbox
}

copies() {
    begin copies
    deliver plain quoting
    has mbox plain quoting.escaped
    has archive-mbox plain quoting.escaped
    only mbox archive-mbox
}

mail rust rust-bounces@lists.example.org 'To: rust@lists.example.org' 'Subject: borrow' \
    'List-Id: Rust people' '	<rust.lists.example.org>' '' 'hello'
mail gardens ann@x.example 'To: bob@x.example,' ' gardeners@example.org' 'Subject: roses' '' 'hello'
mail bulk shop@x.example 'Precedence: bulk' 'Subject: buy' '' 'hello'
mail climbing bad@x.example 'List-Id: <../../.procmailrc>' 'Subject: climb' '' 'hello'
mail hidden bad@x.example 'List-Id: <.procmailrc>' 'Subject: hide' '' 'hello'
mail several bad@x.example 'List-Id: <rust ../.procmailrc>' 'Subject: several' '' 'hello'
mail not_gardens ann@x.example 'To: not-gardeners@example.org' 'Subject: weeds' '' 'hello'
lists() {
    begin lists Mail Mail/lists
    deliver rust gardens bulk plain climbing hidden several not_gardens rust
    has Mail/lists/rust rust several rust
    has Mail/lists/gardeners gardens
    has Mail/lists/other bulk
    has Mail/inbox plain climbing hidden not_gardens
    only Mail/lists/{rust,gardeners,other} Mail/inbox
    logged Mail/log "$(abstract rust lists/rust; abstract gardens lists/gardeners; abstract bulk lists/other
        abstract plain inbox; abstract climbing inbox; abstract hidden inbox; abstract several lists/rust
        abstract not_gardens inbox; abstract rust lists/rust)"
}

# Mails without a line `From `: a whole one, one that has a head alone, and one whose lines end with CRLF.
printf 'Subject: bare\n\nhello\n' > "$mails/bare"
printf 'Subject: head alone\n' > "$mails/head"
printf 'Subject: crlf\r\n\r\nhello\r\nFrom here\r\n' > "$mails/crlf"
maildir() {
    begin maildir Maildir
    deliver plain quoting rust
    [ "$agent" = 3.22 ] || deliver bare head crlf
    # A mail's file is the mail without its line `From `, and no line is escaped. formail ends a head that has no empty
    # line with one, and to procmail a mail with CRLF is all head.
    local count=0 mails_here="plain quoting bare head crlf"
    [ "$agent" != 3.22 ] || mails_here="plain quoting"
    for mail in $mails_here; do
        { sed '1{/^From /d}' "$mails/$mail"; grep -q '^$' "$mails/$mail" || echo; } > want
        cmp -s want "$(grep -l "$(grep Subject: want)" "$home"/Maildir/new/*)" || wrong "no file has $mail alone"
        count=$((count + 1))
    done
    [ "$(find "$home"/Maildir/new -type f | wc -l)" -eq "$count" ] || wrong "Maildir has $(cat "$home"/Maildir/new/*)"
    sed 1d "$mails/rust" | cmp -s - "$home"/Maildir/.Lists/new/* || wrong "Lists has another mail"
    [ "$(find "$home" -type f ! -path "$home/bin/*" | wc -l)" -eq $((count + 3)) ] || wrong "there are other files"
    [ "$(cd "$home" && echo Maildir/{tmp,cur}/* Maildir/.Lists/{tmp,cur}/*)" = \
        'Maildir/tmp/* Maildir/cur/* Maildir/.Lists/tmp/* Maildir/.Lists/cur/*' ] || wrong "tmp or cur has a file"
    # A filter that fails, is killed or writes half of it loses no mail: that has its line then, but under 3.22.
    [ "$agent" != 3.22 ] || return 0
    local broken
    for broken in 'exit 3' 'head -c 20; exit 3' 'cat > /dev/null; kill -9 $$'; do
        rm "$home"/Maildir/new/* "$home/bin/formail"
        printf '#!/bin/sh\n%s\n' "$broken" > "$home/bin/formail"
        chmod +x "$home/bin/formail"
        deliver plain
        cmp -s "$mails/plain" "$home"/Maildir/new/* || wrong "'$broken' as the filter left $(cat "$home"/Maildir/new/*)"
    done
}

mail spam shop@x.example 'To: joe@example.org' 'Subject: win' '' 'money for nothing'
mail crash bad@x.example 'To: joe@example.org' 'Subject: crash' '' 'crash'
{ cat "$mails/spam"; head -c 256000 /dev/zero | tr '\0' x | fold -w 70; echo; } > "$mails/large"
with_field plain 'X-Spam-Status: No' plain.seen
with_field spam 'X-Spam-Status: Yes' spam.seen
spam() {
    begin spam Mail
    deliver plain spam crash large
    has Mail/inbox plain.seen crash large
    has Mail/junk spam.seen
    only Mail/inbox Mail/junk
    logged Mail/log "$(abstract plain.seen inbox; abstract spam.seen junk
        echo 'procmail: Program failure (3) of "$SPAMFILTER"'; abstract crash inbox; abstract large inbox)"
}

mail ask ann@x.example 'From: Ann <ann@x.example>' 'To: Joe <joe@example.org>' 'Subject: lunch?' \
    'Message-ID: <1@x.example>' '' 'today?'
mail again ann@x.example 'From: Ann <ann@x.example>' 'To: joe@example.org' 'Subject: dinner?' \
    'Message-ID: <2@x.example>' '' 'today?'
mail other bob@x.example 'From: bob@x.example' 'Cc: joe@example.org' 'Subject: tea' '' 'now?'
mail daemon mailer-daemon@x.example 'From: MAILER-DAEMON@x.example' 'To: joe@example.org' 'Subject: returned' '' 'no'
mail robot bot@x.example 'Auto-Submitted: auto-replied' 'To: joe@example.org' 'Subject: away too' '' 'no'
mail looped sue@x.example 'X-Loop: joe@example.org' 'To: joe@example.org' 'Subject: loop' '' 'no'
mail unnamed tom@x.example 'To: everybody@example.org' 'Subject: all' '' 'no'
vacation() {
    begin vacation Mail
    echo 'I am away.' > "$home/Mail/away.txt"
    deliver ask again other daemon robot looped unnamed ask
    has Mail/inbox ask again other daemon robot looped unnamed ask
    says sent '-oi -t
To: ann@x.example
Subject: Re: lunch?
References: <1@x.example>
In-Reply-To: <1@x.example>
Precedence: junk
Auto-Submitted: auto-replied
X-Loop: joe@example.org

I am away.
--
-oi -t
To: bob@x.example
Subject: Re: tea
Precedence: junk
Auto-Submitted: auto-replied
X-Loop: joe@example.org

I am away.
--'
    [ "$agent" = 3.22 ] || says Mail/vacation.cache $'ann@x.example\nbob@x.example'
    only Mail/inbox Mail/away.txt Mail/vacation.cache sent
    logged Mail/log "$(for mail in ask again other daemon robot looped unnamed ask; do abstract "$mail" inbox; done)"
}

with_field plain 'X-Loop: joe@example.org' plain.sent
with_field short 'X-Loop: joe@example.org' short.sent
forward() {
    begin forward Mail
    deliver plain looped daemon
    touch "$home/refuse"
    deliver short
    rm "$home/refuse"
    has Mail/inbox plain.sent looped daemon short.sent
    # 3.22 takes the line `From ` off, and adds an empty line.
    if [ "$agent" = 3.22 ]; then
        { echo '-oi joe@elsewhere.example'; sed 1d "$mails/plain.sent"; echo; echo '--'; } > want
    else
        { echo '-oi joe@elsewhere.example'; cat "$mails/plain.sent"; echo '--'; } > want
    fi
    cmp -s want "$home/sent" || wrong "there was sent $(cat "$home/sent")"
    only Mail/inbox sent
    logged Mail/log "$(abstract plain.sent inbox; abstract looped inbox; abstract daemon inbox
        echo 'procmail: Program failure (69) of " $OTHER"'; abstract short.sent inbox)"
}

# 50 + 40 + 2 * 10 - 2; 10; 0; -60 - 3 * 2; 40 + 10 - 60
mail boss boss@work.example 'From: boss@work.example' 'Subject: the deadline' '' \
    'joe, look' '> an older line' 'ask joe now'
mail friend ann@x.example 'From: ann@x.example' 'Subject: tea' '' 'dear joe' 'hi'
mail neutral ann@x.example 'From: ann@x.example' 'Subject: tea' '' 'dear joey' 'hi'
mail quoted l@x.example 'From: ann@x.example' 'List-Id: <a.x>' 'Subject: old' '' '> a' '> b' 'well' '> c'
mail invoice shop@x.example 'From: shop@x.example' 'Precedence: bulk' 'Subject: Your invoice' '' 'dear joe' 'pay'
with_field boss 'X-Score: 108' boss.scored
with_field friend 'X-Score: 10' friend.scored
with_field neutral 'X-Score: 0' neutral.scored
with_field quoted 'X-Score: -66' quoted.scored
with_field invoice 'X-Score: -10' invoice.scored
scores() {
    begin scores Mail
    deliver boss friend neutral quoted invoice
    has Mail/first boss.scored friend.scored
    has Mail/inbox neutral.scored
    has Mail/last quoted.scored invoice.scored
    only Mail/first Mail/inbox Mail/last
    logged Mail/log "$(echo score 108; abstract boss.scored first; echo score 10; abstract friend.scored first
        echo score 0; abstract neutral.scored inbox; echo score -66; abstract quoted.scored last
        echo score -10; abstract invoice.scored last)"
}

mail again_by_list l@x.example 'Message-ID: <1@x.example>' 'Subject: lunch?' 'List-Id: <a.x>' '' 'today?'
mail two_fields l@x.example 'Message-ID: <3@x.example>' 'Message-ID: <1@x.example>' 'Subject: two' '' 'today?'
mail empty_field l@x.example 'Message-ID:' 'Subject: empty' '' 'today?'
duplicates() {
    # 3.22 writes its cache in another way.
    [ "$agent" != 3.22 ] || return 0
    begin duplicates Mail
    deliver ask again plain again_by_list plain ask two_fields empty_field empty_field two_fields
    has Mail/inbox ask again plain plain two_fields empty_field empty_field
    says Mail/msgid.cache $'<1@x.example>\n<2@x.example>\n<3@x.example>'
    only Mail/inbox Mail/msgid.cache
    logged Mail/log "$(abstract ask inbox; abstract again inbox; abstract plain inbox
        dropped again_by_list; abstract plain inbox; dropped ask; abstract two_fields inbox; abstract empty_field inbox
        abstract empty_field inbox; dropped two_fields)"
}

# dropped MAIL: what the log says of a mail of which /dev/null got the head.
dropped() {
    printf '%s\n Subject: %s\n  Folder: /dev/null %s\n' "$(head -n 1 "$mails/$1")" \
        "$(sed -n '/^$/q; s/^Subject: //p' "$mails/$1")" "$(sed '/^$/q' "$mails/$1" | wc -c)"
}

all() {
    agent=$1
    delivers=$2
    for run in one_mailbox copies lists maildir spam vacation forward scores duplicates; do "$run"; done
}

[ "$(ls "$examples"/*.rc | wc -l)" -eq 9 ] || fail 'an example has no run here'
all procmail "$program"
if other=$(command -v procmail) && "$other" -v 2>&1 < /dev/null | grep -q 'v3\.2[23]'; then
    # 3.22 makes the user's default mailbox where there is none.
    spool=/var/mail/$(id -un)
    [ -e "$spool" ] || trap 'rm -rf "$folder"; [ -s "$spool" ] || rm -f "$spool"' EXIT
    all 3.22 "$other"
    echo "examples: the 9 rcfiles deliver as they say, and procmail 3.22 makes the same files by them but duplicates.rc"
else
    echo "examples: the 9 rcfiles deliver as they say; the comparison with procmail 3.22, which isn't installed: skipped"
fi
