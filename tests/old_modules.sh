#!/usr/bin/env bash
# Old rcfiles do here what they do under procmail 3.22, once procmail-check --fix has brought them over: each of the 73
# modules of Debian's procmail-lib is included by an rcfile, with five mails. What it leaves is compared: the mailboxes and
# other files, the mail after the module, and the variables. tests/moving/old_modules names the modules that differ, with
# what is known of the reasons; at least 60 do the same, and none waits for ever.
#
# The modules are in /usr/share/procmail-lib, or in the directory PROCMAIL_LIB. MODULES names those that are tried.
set -eu
. "$(dirname "$0")/common.bash"
modules=${PROCMAIL_LIB:-/usr/share/procmail-lib}
if [ ! -d "$modules" ]; then
    echo "$name: no procmail-lib here: skipped"
    exit 0
fi
old_procmail=$(command -v procmail || true)
if ! { [ -n "$old_procmail" ] && "$old_procmail" -v 2>&1 < /dev/null | grep -q 'v3\.2[23]'; }; then
    echo "$name: no procmail 3.22 here: skipped"
    exit 0
fi

# A run that has not ended after so many seconds waits for ever.
limit=${LIMIT:-60}

mkdir mails fixed
cat > mails/plain <<'M'
From ann@x.example Sun Nov 29 10:00:00 2026
Return-Path: <ann@x.example>
Received: from mx.x.example (mx.x.example [192.0.2.7]) by mail.example.org with SMTP id 77; Sun, 29 Nov 2026 10:00:00 +0000
Date: Sun, 29 Nov 2026 09:59:58 +0000
From: Ann Other <ann@x.example>
To: joe@example.org
Subject: Re: Re: lunch
Message-ID: <1@x.example>
Lines: 2

hello joe
see you
M
cat > mails/list <<'M'
From dev-admin@lists.example.org Sun Nov 29 10:01:00 2026
Return-Path: <dev-admin@lists.example.org>
Received: from lists.example.org ([192.0.2.8]) by mail.example.org with SMTP; Sun, 29 Nov 2026 10:01:00 +0000
Date: Sun, 29 Nov 2026 10:00:30 +0000
From: bob@y.example (Bob)
Sender: dev-admin@lists.example.org
To: dev@lists.example.org
Reply-To: dev@lists.example.org
Subject: [dev] the next release
Message-ID: <2@y.example>
Precedence: list
List-Id: Developers <dev.lists.example.org>
List-Post: <mailto:dev@lists.example.org>
X-Mailing-List: <dev@lists.example.org> archive/latest/12

a mail of a list
M
cat > mails/bounce <<'M'
From MAILER-DAEMON Sun Nov 29 10:02:00 2026
Date: Sun, 29 Nov 2026 10:02:00 +0000
From: Mail Delivery Subsystem <MAILER-DAEMON@mail.example.org>
To: joe@example.org
Subject: Returned mail: see transcript for details
Message-ID: <3@mail.example.org>
Auto-Submitted: auto-replied
MIME-Version: 1.0
Content-Type: text/plain; charset=us-ascii

   ----- The following addresses had permanent fatal errors -----
<nobody@z.example>

 550 <nobody@z.example>... User unknown
M
cat > mails/parts <<'M'
From spam@spam.example Sun Nov 29 10:03:00 2026
Received: from unknown (HELO spam.example) (203.0.113.9) by mail.example.org; Sun, 29 Nov 2026 10:03:00 +0000
Date: Sun, 29 Nov 2026 10:02:59 +0000
From: "Offers!!!" <offers@spam.example>
To: undisclosed-recipients:;
Subject: MAKE MONEY FAST!!! $$$
Message-ID: <4@spam.example>
MIME-Version: 1.0
X-Mailer: Microsoft Outlook Express 5.00
Content-Type: multipart/alternative; boundary="b1"

--b1
Content-Type: text/plain; charset="iso-8859-1"
Content-Transfer-Encoding: quoted-printable

Click here: http://www.spam.example/=3Fremove now! To be removed from
this list reply with remove in the subject.
--b1
Content-Type: text/html

<html><body>Click <a href="http://www.spam.example/">here</a></body></html>
--b1--
M
cat > mails/request <<'M'
From ann@x.example Sun Nov 29 10:04:00 2026
Date: Sun, 29 Nov 2026 10:03:58 +0000
From: ann@x.example
To: joe+files@example.org
Cc: joe@example.org
Subject: send help
Message-ID: <5@x.example>

ping
M

for module in "$modules"/*.rc; do
    "$programs/procmail-check" --fix -q "$module" > "fixed/${module##*/}" || [ $? -le 2 ] || fail "$module: $?"
done

# Variables that the shell sets, and those that docs/DIFFERENCES.md has: MATCH after an inverted condition and LASTFOLDER
# among them. As it also says, a value that isn't UTF-8 isn't in the environment here, caches have no bytes 0, and what
# programs get has one empty line less at its end; so empty lines aren't compared.
told='_\|PWD\|OLDPWD\|SHLVL\|TZ\|PROCMAIL_VERSION\|COMSAT\|LINEBUF\|SUSPEND\|MATCH\|LASTFOLDER'

# run PROGRAM PATH MODULES HOME MODULE MAIL: the mail is delivered in a new home directory, whose files are then listed.
# Each program that needs a network or a clock is one that says its name.
run() {
    local home=$4 status=0 file
    mkdir -p "$home/bin" "$home/Mail"
    cp "mails/$6" "$home/mail"
    for file in date nslookup host dig ping telnet lynx hostname id; do
        printf '#!/bin/sh\necho "%s $*"\n' "$file" > "$home/bin/$file"
    done
    printf '#!/bin/sh\necho "to $*" >>"$HOME/sent"; cat >>"$HOME/sent"\n' > "$home/bin/sendmail"
    chmod +x "$home/bin/"*
    cat > "$home/rc" <<RC
HOME=$home
LOGNAME=joe
PATH=$home/bin:$2
SHELL=/bin/sh
SENDMAIL=$home/bin/sendmail
MAILDIR=$home/Mail
PMSRC=$3
DEFAULT=$home/inbox
ORGMAIL=$home/orgmail
LOGFILE=$home/log
LOCKSLEEP=1
LOCKTIMEOUT=2
LINEBUF=65536
FORMAIL=formail
CAT=cat
SED=sed
AWK=awk
GREP=grep
TEST=test
INCLUDERC=$3/$5
:0 wic
| env -0 >$home/variables
:0:
$home/after
RC
    (cd "$home" && exec env -i HOME="$home" LOGNAME=joe PATH="$home/bin:$2" timeout "$limit" "$1" -m ./rc < mail > /dev/null 2>&1) || status=$?
    # 3.22 doesn't wait for its clones.
    for _ in 1 2 3 4 5; do
        [ -n "$(find "$home" -name '*.lock')" ] || break
        sleep 1
    done
    {
        echo "status $status"
        cat "$home/variables" 2> /dev/null | tr '\n\0' ' \n' | grep -av -e "^\($told\)=" | LC_ALL=C.UTF-8 grep -ax '.*' | sort || true
        (cd "$home" && find . -type f ! -path './bin/*' ! -name rc ! -name mail ! -name log ! -name variables ! -name '*.cache' | sort |
            while IFS= read -r file; do
                echo "== $file"
                tr -s '\0' '\n' < "$file" | sed -e 's/^\(From [^ ]*\) .*/\1/'
            done)
    } | sed -e "s|$home|HOME|g" -e "s|$3|PMSRC|g" -e "s|$2|PATH|g" > "$home.tree"
}

# try MODULE: what its mails leave, by both programs.
try() {
    local mail
    for mail in mails/*; do
        mail=${mail##*/}
        mkdir -p "runs/old/$1" "runs/new/$1"
        run "$old_procmail" /usr/bin:/bin "$modules" "$folder/runs/old/$1/$mail" "$1" "$mail"
        run "$program" "$programs:/usr/bin:/bin" "$folder/fixed" "$folder/runs/new/$1/$mail" "$1" "$mail"
        cmp -s "runs/old/$1/$mail.tree" "runs/new/$1/$mail.tree" ||
            { echo "== $1, $mail"; diff "runs/old/$1/$mail.tree" "runs/new/$1/$mail.tree" || true; } >> "runs/$1.differs"
        ! grep -qx 'status 124' "runs/new/$1/$mail.tree" || echo "$1, $mail" >> "runs/$1.waits"
    done
}

mkdir runs
at_once=0
for module in ${MODULES:-$(cd "$modules" && ls -- *.rc)}; do
    try "$module" &
    at_once=$((at_once + 1))
    [ "$at_once" -lt 8 ] || { wait -n; at_once=$((at_once - 1)); }
done
wait
[ -z "${KEEP:-}" ] || cp -r runs fixed "$KEEP"
cat runs/*.waits > waits 2> /dev/null || true
[ ! -s waits ] || fail "procmail waits for ever: $(cat waits)"
for module in ${MODULES:-$(cd "$modules" && ls -- *.rc)}; do
    [ ! -e "runs/$module.differs" ] || echo "$module"
done > differ
grep -v '^#' "$top/tests/moving/old_modules" | cut -d ' ' -f 1 | sort -u > known
sort differ | comm -23 - known > unknown
[ ! -s unknown ] || fail "these modules do something else here: $(cat unknown; while read -r module; do cat "runs/$module.differs"; done < unknown)"
total=$(ls runs/new | wc -l)
same=$((total - $(wc -l < differ)))
[ -n "${MODULES:-}" ] || [ "$same" -ge 60 ] || fail "only $same of $total modules do the same"
echo "$name: passed, $same of $total modules do the same as under 3.22"
