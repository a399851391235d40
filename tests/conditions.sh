#!/usr/bin/env bash
# Recipes with conditions, run by the built program on real files: lists, loops, sizes, MATCH in a mailbox's name, long
# lines, other line ends, bytes above 127, and expressions that are meant to take forever.
set -eu
. "$(dirname "$0")/common.bash"

# delivers MAILBOX: the mail in `message` goes to this mailbox by the rcfile in `rc`, and to no other
delivers() {
    rm -rf boxes && mkdir boxes
    (cd boxes && timeout 60 "$program" -m ../rc < ../message 2> ../said) || fail "$1: status $?"
    [ "$(ls boxes)" = "$1" ] || fail "wanted $1, and there is: $(ls boxes)"
}

# sorts MAILBOX CONDITION..: a recipe with these conditions delivers there, and any other mail to `else`
sorts() {
    box=$1
    shift
    {
        printf ':0\n'
        for condition in "$@"; do printf '* %s\n' "$condition"; done
        printf '"yes$MATCH"\n\n:0\nelse\n'
    } > rc
    delivers "$box"
}

cat > message <<'MAIL'
From owner-dev@lists.example.org Thu Jan  1 00:00:00 1970
Received: from mx.example.org by mx
	for <joe@mx>; Thu, 1 Jan 1970 00:00:00 +0000
From: Ann <ann@example.net>
To: dev@lists.example.org
Cc: Bob <bob@example.com>,
 joe@mx
Subject: [dev] Re: release 2.4
List-Id: Developers <dev.lists.example.org>
Precedence: list

The build works.
From here on it is tested.
MAIL
sorts yes '^TO_dev@lists\.example\.org'
sorts yes '^TO_joe@mx'
sorts else '^TO_ev@lists'
sorts yes '^FROM_DAEMON'
sorts else '! ^FROM_DAEMON'
sorts yes '! ^X-Loop: joe@mx'
sorts yesdev '^List-Id:.*<\/[-a-z0-9]+'
sorts 'yesrelease 2.4' '^Subject:.*Re: \/.*'
sorts yes 'B ?? ^From here'
sorts else '^From here'
sorts yes "> $(($(wc -c < message) - 1))"
sorts else "> $(wc -c < message)"
sorts yes "< $(($(wc -c < message) + 1))"
sorts else "< $(wc -c < message)"
sorts yes '^Received:.*by mx for <joe@mx>'
sorts yes '^TO_joe@mx' '! B ?? unsubscribe' '< 100000'
printf ':0 D\n* ^subject:\nyes\n\n:0 D\n* ^Subject:\nD\n' > rc
delivers D
printf 'ME=joe@mx\nDOMAIN=lists.example.org\n:0\n* $ ^TO_dev@$\\DOMAIN\n* ! $ ^X-Loop: $ME\nmine\n' > rc
delivers mine
printf 'VACATION=no\n:0\n* VACATION ?? ^^yes^^\naway\n\n:0\nhere\n' > rc
delivers here

# A header of 64 KiB on one line, and one of 64 KiB that is folded.
{
    printf 'A: b\nX-Long: '
    head -c 65536 /dev/zero | tr '\0' x
    printf ' end of it\nX-Folded:'
    for number in $(seq 1 4000); do printf '\n part-%05d' "$number"; done
    printf '\n\nhi\n'
} > message
sorts yes '^X-Long: x*x end of it$'
sorts 'yesend of it' '^X-Long: x+ \/.*'
sorts yes '^X-Folded:.*part-00001 part-00002 .*part-04000$'
sorts yespart-04000 '^X-Folded:.* \/part-04.*'

# Lines that end with CRLF: all of the mail is head.
printf 'From: a@b\r\nSubject: crlf\r\n\r\nbody here\r\n' > message
sorts yes '^Subject: crlf.$'
sorts else '^Subject: crlf$'
sorts yes '^body here'
sorts else 'B ?? .'

# Bytes above 127, in an rcfile and in a mail.
printf 'Subject: Gr\374\337e\n\nna\357ve\n' > message
printf ':0\n* ^Subject: Gr\374\337e$\n* B ?? na[\340-\377]ve\nbytes\n\n:0\nelse\n' > rc
delivers bytes
printf ':0\n* ^Subject: Gr\334\ncase\n\n:0\nelse\n' > rc
delivers else

# A mail without a body, one without a head, and an empty one.
printf 'A: b\n' > message
sorts yes '^A: b$'
sorts else 'B ?? .'
printf '\nhi\n' > message
sorts else .
sorts yes 'B ?? ^^hi$^^'
: > message
sorts else .
sorts yes 'HB ?? ^^$^^'

# Defects are told, and the recipe is passed over.
printf 'A: b\n\nhi\n' > message
sorts else '^A:' '[a'
[ "$(cat said)" = 'procmail: Defective condition "[a"' ] || fail "a defect was told as: $(cat said)"
sorts else '> 10k'
[ "$(cat said)" = 'procmail: Defective condition "> 10k"' ] || fail "a defect was told as: $(cat said)"
printf "X='\$ \$X'\n:0\n* \$ \$X\nyes\n\n:0\nelse\n" > rc
delivers else

# Expressions that are meant to take forever, on a subject of 64 KiB and on a body of 1 MiB.
{
    printf 'Subject:'
    for number in $(seq 1 8192); do printf ' re: re:'; done
    printf '\n\n'
    head -c 1048576 /dev/zero | tr '\0' a
    printf '\n'
} > message
sorts yes '^Subject:( *(re:)?)+\/x*$'
sorts else 'B ?? (a|aa)+c'
sorts else 'B ?? a?a?a?a?a?a?a?a?a?a?a?a?a?a?a?a?a?a?a?a?aaaaaaaaaaaaaaaaaaaab'
sorts else 'B ?? a*b'
sorts else 'B ?? ((((a*)*)*)*)*b'
sorts else 'B ?? (.*)(.*)(.*)(.*)(.*)[^a]b'

# A thousand recipes that don't match, and then one that does.
printf 'Subject: needle\n\nhi\n' > message
for number in $(seq 1 1000); do printf ':0\n* ^Subject:.*(pin|nail)%s\nbox%s\n\n' "$number" "$number"; done > rc
printf ':0\n* ^Subject: \\/needle\n$MATCH\n' >> rc
delivers needle
echo "conditions: passed"
