#!/usr/bin/env bash
# A mailing list of SmartList works here as under procmail 3.22, once procmail-check --fix has brought its rcfiles over. A
# list is made as the package makes it. Twelve mails, of the kinds that SmartList tells apart, are delivered by 3.22 with
# the shipped rcfiles, and here with the fixed ones. Where each comes is compared: the status, the files of the list that
# have something, and to whom sendmail is to send; at least ten of the twelve come to the same places. Then the texts are
# compared.
#
# The rcfiles call formail of 3.22 there and ours here. SmartList's shell scripts, which procmail-check doesn't read, call
# that of 3.22 in both. sendmail keeps what it gets, choplist calls it once, and date tells one time. As
# docs/DIFFERENCES.md says, formail adds fields in another order here, and the logs have other lines; so the order of the
# lines isn't compared, and no line of procmail or formail in the log.
#
# SmartList is in /var/list, or in the directory SMART_LIST, which has its .bin and .etc. KEEP names a directory for what
# the mails leave.
set -eu
. "$(dirname "$0")/common.bash"
shipped=${SMART_LIST:-/var/list}
if ! { [ -x "$shipped/.bin/multigram" ] && [ -r "$shipped/.etc/rc.init.dist" ] && [ -r "$shipped/.etc/rc.custom" ]; }; then
    echo "$name: no SmartList here: skipped"
    exit 0
fi
old_procmail=$(command -v procmail || true)
if ! { [ -n "$old_procmail" ] && "$old_procmail" -v 2>&1 < /dev/null | grep -q 'v3\.2[23]'; }; then
    echo "$name: no procmail 3.22 here: skipped"
    exit 0
fi
old_programs=$(dirname "$old_procmail")

# mail NAME < MAIL
mkdir mails
mail() {
    cat > "mails/$1"
}
mail submission <<'M'
From ann@x.example Sun Nov 29 10:00:00 2026
Received: from mx.x.example by mail.example.org; Sun, 29 Nov 2026 10:00:00 +0000
Date: Sun, 29 Nov 2026 09:59:58 +0000
From: Ann Other <ann@x.example>
To: testing@lists.example.org
Subject: the next release
Message-ID: <1@x.example>
Return-Receipt-To: ann@x.example

The next release is due in a week.
Who can test it on a slow machine?
M
cp mails/submission mails/duplicate
cp mails/submission mails/stranger
mail loop <<'M'
From ann@x.example Sun Nov 29 10:01:00 2026
Date: Sun, 29 Nov 2026 10:00:58 +0000
From: Ann Other <ann@x.example>
To: testing@lists.example.org
Subject: the next release
Message-ID: <2@x.example>
X-Loop: testing@lists.example.org

The next release is due in a week.
M
mail diverted <<'M'
From eve@y.example Sun Nov 29 10:02:00 2026
Date: Sun, 29 Nov 2026 10:01:58 +0000
From: eve@y.example
To: testing@lists.example.org
Subject: subscribe
Message-ID: <3@y.example>

subscribe
M
mail subscription <<'M'
From eve@y.example Sun Nov 29 10:03:00 2026
Date: Sun, 29 Nov 2026 10:02:58 +0000
From: Eve <eve@y.example>
To: testing-request@lists.example.org
Subject: subscribe
Message-ID: <4@y.example>

M
mail confirmation <<'M'
From eve@y.example Sun Nov 29 10:04:00 2026
Date: Sun, 29 Nov 2026 10:03:58 +0000
From: Eve <eve@y.example>
To: testing-request@lists.example.org
Subject: Re: CONFIRM s112910030077
Message-ID: <5@y.example>

M
mail unsubscription <<'M'
From bob@x.example Sun Nov 29 10:05:00 2026
Date: Sun, 29 Nov 2026 10:04:58 +0000
From: bob@x.example (Bob)
To: testing-request@lists.example.org
Subject: unsubscribe
Message-ID: <6@x.example>

unsubscribe
M
mail help <<'M'
From eve@y.example Sun Nov 29 10:06:00 2026
Date: Sun, 29 Nov 2026 10:05:58 +0000
From: Eve <eve@y.example>
To: testing-request@lists.example.org
Subject: help
Message-ID: <7@y.example>

M
mail archive <<'M'
From ann@x.example Sun Nov 29 10:07:00 2026
Date: Sun, 29 Nov 2026 10:06:58 +0000
From: Ann Other <ann@x.example>
To: testing-request@lists.example.org
Subject: archive get rules
Message-ID: <8@x.example>

M
mail bounce <<'M'
From MAILER-DAEMON Sun Nov 29 10:08:00 2026
Date: Sun, 29 Nov 2026 10:07:58 +0000
From: Mail Delivery Subsystem <MAILER-DAEMON@mail.example.org>
To: testing-request@lists.example.org
Subject: Returned mail: User unknown
Message-ID: <9@mail.example.org>

   ----- The following addresses had permanent fatal errors -----
<bob@x.example>

   ----- Transcript of session follows -----
550 <bob@x.example>... User unknown
M
mail command <<'M'
From joe@example.org Sun Nov 29 10:09:00 2026
Date: Sun, 29 Nov 2026 10:08:58 +0000
From: joe@example.org
To: testing-request@lists.example.org
Subject: a command
Message-ID: <10@example.org>
X-Command: joe@example.org password showdist

M

# make PROGRAMS HOME: SmartList as its package installs it, with one list, by these programs. What differs from run to run
# has one form: the time, and what sendmail is given is in the file sent.
make() {
    local home=$2
    mkdir -p "$home"
    cp -R "$shipped/.bin" "$shipped/.etc" "$home"
    chmod -R u+rwX "$home"
    sed -e 's/listmaster=/listmaster=listman/g' -e 's/INSERT.YOUR.MAIL.DOMAIN.HERE/lists.example.org/g' \
        "$home/.etc/rc.init.dist" > "$home/.etc/rc.init"
    : > "$home/.etc/reject"
    rm -f "$home/.bin/procmail"
    rm -f "$home/.bin/choplist"
    ln -s "$1/procmail" "$1/formail" "$1/lockfile" "$home/.bin"
    for script in "$home/.bin/"*; do
        ! grep -q '^formail=formail' "$script" || sed -i -e "s|^formail=formail|formail=$old_programs/formail|" "$script"
    done
    printf '#!/bin/sh\necho 1129100300\n' > "$home/.bin/date"
    printf '#!/bin/sh\n[ "$1" = -q ] || { echo "to $*"; cat; } >> "%s/sent"\n' "$home" > "$home/.bin/sendmail"
    printf '#!/bin/sh\nshift 7\nexec "$@" $(sed -n "s/^\\([^ ]*@[^ ]*\\).*/\\1/p" dist)\n' > "$home/.bin/choplist"
    chmod +x "$home/.bin/date" "$home/.bin/sendmail" "$home/.bin/choplist"
    (cd "$home" && PATH=$home/.bin:$PATH && createlist testing > /dev/null 2>&1)
    printf 'ann@x.example\nbob@x.example (Bob)\n' >> "$home/testing/dist"
    echo 'Be kind.' > "$home/testing/archive/rules"
}

# deliver HOME MAIL: as flist, the program that the mail server starts, does it.
deliver() {
    local to=testing first="./rc.submit" next="./rc.request"
    if grep -q '^To: testing-request@' "mails/$2"; then to=testing-request first=./rc.request next=; fi
    {
        (cd "$1/testing" && exec env -i HOME="$1" LOGNAME=list PATH=/usr/bin:/bin timeout 60 "$1/.bin/procmail" $first \
            RC_INIT=rc.init PATH=../.bin list=testing X_ENVELOPE_TO=$to SENDMAIL="$1/.bin/sendmail" $next \
            ./../.etc/rc.post < "$folder/mails/$2" > "$1/said" 2>&1) || echo "status $?" >> "$1/status"
    } 9>&1 | cat
}

# What some mails need: a mail that came before, a list for its subscribers alone, a cookie that was sent.
prepare() {
    case $2 in
    duplicate) deliver "$1" submission ;;
    stranger)
        echo 'foreign_submit' >> "$1/testing/rc.custom"
        sed -i -e '/^ann@/d' "$1/testing/dist"
        ;;
    confirmation) mkdir "$1/testing/cookies" && echo eve@y.example > "$1/testing/cookies/s112910030077" ;;
    esac
}

# places HOME: the status, the files of the list, and to whom sendmail is to send.
places() {
    (cd "$1" && cat status 2> /dev/null || true
        find . -type f -size +0 ! -path './.bin/*' ! -path './.etc/*' ! -name 'rc.*' ! -name msgid.cache ! -name said ! -name log
        sed -n -e 's/^to /to /p' sent 2> /dev/null || true) | sed -e 's/\([su]1129100300\)[0-9]*/\1/' | sort
}

# texts HOME: the lines of these files.
texts() {
    (cd "$1" && find . -type f -size +0 ! -path './.bin/*' ! -path './.etc/*' ! -name 'rc.*' ! -name msgid.cache ! -name said | sort |
        while IFS= read -r file; do
            echo "== $file"
            case $file in
            */log) grep -v -e '^procmail: ' -e '^formail: ' -e '^From ' -e '^ Subject: ' -e '^  Folder: ' "$file" || true ;;
            *) cat "$file" ;;
            esac | sed -e 's/^\(>*From [^ ]*\) .*/\1/' -e 's/^\(Resent-Message-ID:\) .*/\1/' -e '/^$/d' | sort
        done) | sed -e '/^== .*\/log$/d' -e "s|$1|HOME|g" -e 's/\([su]1129100300\)[0-9]*/\1/g'
}

# fix HOME: the rcfiles are brought over.
fix() {
    local rcfile
    for rcfile in "$1"/.etc/rc.* "$1"/testing/rc.custom; do
        "$programs/procmail-check" --fix -q "$rcfile" > "$1/fixed" || [ $? -le 2 ] || fail "${rcfile##*/}: $?"
        cat "$1/fixed" > "$rcfile"
    done
    rm "$1/fixed"
}

# try MAIL: what it leaves, by both programs.
try() {
    local side home
    for side in old new; do
        home=$folder/$side/$1
        if [ "$side" = old ]; then make "$old_programs" "$home"; else make "$programs" "$home" && fix "$home"; fi
        prepare "$home" "$1"
        deliver "$home" "$1"
        places "$home" > "$side/$1.places"
        texts "$home" > "$side/$1.texts"
    done
}

mkdir old new
for mail in mails/*; do
    try "${mail##*/}" &
done
wait
[ -z "${KEEP:-}" ] || cp -r mails old new "$KEEP"

# What differs, and why: `.*$.*$`, with which rc.submit looks for nine lines, holds for one line here, so a short request
# to the list is a submission. And formail refuses -I"$List_headers", whose value has several fields, so a submission goes
# to the same subscribers, and into the archive, without the fields of the list.
known_elsewhere=" diverted "
known_changed=" duplicate submission "
count=0
same=0
for mail in mails/*; do
    mail=${mail##*/}
    count=$((count + 1))
    if ! cmp -s "old/$mail.places" "new/$mail.places"; then
        case $known_elsewhere in
        *" $mail "*) ;;
        *) fail "$mail comes to other places (left: 3.22): $(diff "old/$mail.places" "new/$mail.places")" ;;
        esac
    else
        same=$((same + 1))
        cmp -s "old/$mail.texts" "new/$mail.texts" && continue
        case $known_changed in
        *" $mail "*) ;;
        *) fail "$mail has another text (left: 3.22): $(diff "old/$mail.texts" "new/$mail.texts")" ;;
        esac
    fi
done
[ "$count" -eq 12 ] || fail "$count mails"
[ "$same" -ge 10 ] || fail "only $same of $count mails come to the same places"
echo "$name: passed, $same of $count mails come where they come under 3.22"
