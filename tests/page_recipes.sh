#!/usr/bin/env bash
# Each rcfile that is an example in a manual page is run by the built program over mails of different kinds: it logs no
# error, and the files exist afterwards that it is to make. Sendmail, the spam filter, the printer and MH's rcvstore are
# scripts of this test. The script of procmail(1) for a system mailbox is run too, if /var/mail can be written to.
set -eu
. "$(dirname "$0")/common.bash"
. "$top/tests/page_rcfiles.bash"
pages=$top/man

write_page_rcfiles

# What each of them makes below the home folder, with a text that stands in it; a pattern of names is one that matches.
cat > wanted <<'TABLE'
procmail.1_A_small_rcfile|Mail/newsletters|newsletter
procmail.1_A_small_rcfile|Mail/inbox|Subject: hi
procmail.1_One_mailbox_for_several_users_(multidrop)|sales|Subject: an application
procmail.1_DEBUGGING|default|Subject: hi
procmail.1_Text_from_the_mail|list-club|Subject: dev digest
procmail.1_Text_from_the_mail_2|sent|-- -C/etc/passwd
procmailrc.5_DESCRIPTION|Mail/dev-list|Subject: list
procmailrc.5_DESCRIPTION|Mail/inbox|Subject: hi
procmailrc.5_Regular_expressions|lists-other|Subject: other
procmailrc.5_Programs|default|Subject: hi
procmailrc.5_BLOCKS|boss|Subject: urgent
procmailrc.5_BLOCKS|sent|phone@example.net
procmailrc.5_EXAMPLES|project|Subject: a budget
procmailrc.5_EXAMPLES|from-ann|Subject: a budget
procmailrc.5_EXAMPLES|example|Subject: other
procmailrc.5_EXAMPLES_2|junk|lottery
procmailrc.5_EXAMPLES_2|unchecked|Subject: dev digest
procmailrc.5_EXAMPLES_3|friends|Subject: hi
procmailsc.5_EXAMPLES|long|Subject: 151 lines
procmailsc.5_EXAMPLES_2|quoting|> two
procmailsc.5_EXAMPLES_3|suspicious|lottery
procmailsc.5_EXAMPLES_4|short-or-links|Subject: hi
procmailex.5_The_first_rcfile|Mail/newsletters|newsletter
procmailex.5_The_first_rcfile|Mail/inbox|Subject: hi
procmailex.5_The_first_rcfile|Mail/log|Folder: newsletters
procmailex.5_Mailing_lists_into_mailboxes|dev-list|Subject: list
procmailex.5_Mailing_lists_into_mailboxes|list-other|Subject: other
procmailex.5_Maildirs_for_an_IMAP_server|Maildir/new/*|Subject: hi
procmailex.5_Maildirs_for_an_IMAP_server|Maildir/.lists.other/new/*|Subject: other
procmailex.5_MH_folders|tex/1|about tex
procmailex.5_MH_folders_2|stored|+meetings
procmailex.5_A_directory_for_each_month|2*/meeting|Subject: a meeting
procmailex.5_A_file_that_switches_a_recipe_on|sent|joe@elsewhere.example.net
procmailex.5_Copies|archive|Subject: hi
procmailex.5_Copies|sent|phone@example.net
procmailex.5_Copies|invoices|an invoice
procmailex.5_Copies|accounting|an invoice
procmailex.5_One_archive_a_month|archive-2*|Subject: hi
procmailex.5_The_last_32_mails|backup/msg.*|Subject: hi
procmailex.5_Large_mail|large|Subject: large
procmailex.5_One_rcfile_in_parts|personal|Subject: hi
procmailex.5_One_rcfile_in_parts|included|Subject: list
procmailex.5_A_spam_filter|junk|lottery
procmailex.5_A_part_of_a_mail_changed|invoices|PLEASE PAY
procmailex.5_A_part_of_a_mail_changed|default|please pay
procmailex.5_Base64_and_quoted-printable_(MIME)|default|in base64
procmailex.5_Base64_and_quoted-printable_(MIME)|default|in = quoted-printable
procmailex.5_Encoded_subjects|invoices|Subject: =?UTF-8?B?
procmailex.5_Attachments|attached-programs|Subject: programs
procmailex.5_Digests|digests|Subject: dev digest
procmailex.5_Fields|default|Reply-To: joe@example.org
procmailex.5_Forwarding_without_loops|sent|X-Loop: joe@example.org
procmailex.5_Forwarding_without_loops|sent|joe@elsewhere.example.net
procmailex.5_Forwarding_without_loops|default|Subject: loop
procmailex.5_A_vacation_reply|sent|To: ann@example.org
procmailex.5_A_vacation_reply|sent|I am away
procmailex.5_A_vacation_reply|vacation.cache|ann@example.org
procmailex.5_Answers_by_subject|sent|all about it
procmailex.5_Answers_by_subject|sent|To: reply@example.com
procmailex.5_Answers_by_subject|default|Subject: send info
procmailex.5_Bounces|bounces|Subject: returned
procmailex.5_Fields_in_variables|answers|Subject: Re: keys
procmailex.5_Fields_in_variables_2|new-subjects|Subject: hi
procmailex.5_The_sender_in_a_variable|colleagues|Subject: hi
procmailex.5_Mail_for_an_address_that_is_gone|default|Subject: hi
procmailex.5_Duplicates|msgid.cache|hi@example.org
procmailex.5_Duplicates_2|duplicates|Subject: hi
procmailex.5_A_block_list_in_a_file|blocked-mail|lottery
procmailex.5_More_than_150_lines|long|Subject: 151 lines
procmailex.5_Printing|paper|%!PS-Adobe
procmailex.5_Printing|default|Subject: print
procmailex.5_Temporary_files|default|X-Quoted-Lines: 4
procmailex.5_The_exit_status|applications|Subject: an application
procmailex.5_Scores|important|X-Score: 25
procmailex.5_A_list_of_all_senders|senders|from ann@example.org
procmailex.5_What_was_done_with_the_mail|with-subject|Subject: hi
procmailex.5_What_was_done_with_the_mail|folders.log|with-subject
procmailex.5_A_filter_of_the_mail_server|team/info|Subject: sales
procmailex.5_A_filter_of_the_mail_server|team/team-sales|Subject: hi
procmailex.5_A_filter_in_a_pipe|printed|MIME-Version: 1.0
procmailex.5_A_filter_in_a_pipe|printed|Subject: hi
TABLE
cut -d '|' -f 1 wanted | sort -u > named
ls rcs | sort > there
cmp -s there named || fail "the examples of the pages aren't those of the table: $(comm -3 there named)"

# The mails, each with its sender in the line From too. The first two are the same.
mkdir mails
mail() {
    sender=${2#From: }
    { printf "From ${sender%%\\n*} Thu Jan  1 00:00:00 1970\n"; printf "$2"; } > "mails/$1"
}
hi='From: ann@example.org\nTo: joe@example.org\nSubject: hi\nMessage-ID: <hi@example.org>\n\nhello\n'
mail 01 "$hi"
mail 02 "$hi"
mail 03 'From: bob@example.com\nTo: dev-list@example.org\nSubject: list\nList-Id: Dev <dev.example.org>\n\na\n'
mail 04 'From: bob@example.com\nTo: joe@example.org\nSubject: other\nList-Id: <other.example.org>\n\na\n'
mail 05 'From: eve@example.com\nTo: joe@example.org\nSubject: you won\n\nthe lottery: million million dollars\n'
mail 06 'From: boss@example.org\nTo: joe@example.org\nSubject: urgent\n\nthe deadline\n'
mail 07 'From: bob@example.com\nTo: joe@example.org\nSubject: an invoice\n\nplease pay\n'
mail 08 'From: MAILER-DAEMON@example.com\nTo: joe@example.org\nSubject: returned\n\na\n'
mail 09 'From: bob@example.com\nTo: joe@example.org\nSubject: loop\nX-Loop: joe@example.org\n\na\n'
mail 10 'From: bob@example.com\nTo: old-address@example.org\nSubject: old\n\na\n'
mail 11 'From: bob@example.com\nTo: joe@example.org\nSubject: a newsletter\n\na\n'
mail 12 'From: bob@example.com\nTo: joe@example.org\nSubject: quotes\n\n> one\n> two\n> three\n> four\nme\n'
mail 13 'From: bob@example.com\nTo: info+sales@example.org\nSubject: sales\n\na\n'
mail 20 'From: print-server@example.com\nTo: joe@example.org\nSubject: print\n\n%%!PS-Adobe\nshowpage\n'
text='Content-Type: text/plain\nContent-Transfer-Encoding'
mail 21 "From: bob@example.com\nTo: joe@example.org\nSubject: coded\n$text: base64\n\naW4gYmFzZTY0Cg==\n"
mail 22 "From: bob@example.com\nTo: joe@example.org\nSubject: coded\n$text: quoted-printable\n\nin =3D=20=\nquoted-printable\n"
mail 23 'From: bob@example.com\nReply-To: reply@example.com\nTo: joe@example.org\nSubject: send info\n\na\n'
mail 24 'From: bob@example.com\nTo: joe@example.org\nSubject: Re: keys\nKeywords: urgent,\n house\n\na\n'
mail 25 'From: ann@example.org\nTo: joe@example.org\nSubject: a budget\n\na\n'
mail 26 'From: bob@example.com\nTo: joe@example.org\nSubject: 151 lines\n\n'
seq 151 >> mails/26
mail 27 'From: bob@unwanted.example\nTo: joe@example.org\nSubject: buy\n\na\n'
mail 28 'From: bob@example.com\nTo: joe@example.org\nSubject: a meeting about tex\n\na\n'
mail 29 'From: bob@example.com\nTo: joe@example.org\nSubject: an application\nDelivered-To: sales@example.org\n\na\n'
mail 30 'From: bob@example.com\nTo: dev@example.org\nSubject: dev digest\nX-List: club\nX-Forward: -C/etc/passwd\n\nunfiltered\n'
mail 31 'From: bob@example.com\nTo: joe@example.org\nSubject: =?UTF-8?B?SW52b2ljZSBmw7xyIEp1bmk=?=\n\na\n'
mail 32 'From: bob@example.com\nTo: joe@example.org\nSubject: programs\nContent-Type: multipart/mixed; boundary=b\n\n--b\n'
printf 'Content-Type: application/octet-stream;\n name="tool.exe"\n\nAAAA\n--b--\n' >> mails/32
mail 14 'From: bob@example.com\nTo: joe@example.org\nSubject: large\n\n'
awk 'BEGIN { for (i = 1; i <= 30000; i++) print "a line of a message that is a large one" }' >> mails/14

mkdir stubs
cat > stubs/sendmail <<'SH'
#!/bin/sh
{ echo "$@"; cat; } >> "$HOME/sent"
SH
cat > stubs/spamc <<'SH'
#!/bin/sh
cat > "$HOME/spam"
! grep -q unfiltered "$HOME/spam" || exit 1
if grep -q lottery "$HOME/spam"; then sed '1a X-Spam-Flag: YES' "$HOME/spam"; else cat "$HOME/spam"; fi
SH
printf '#!/bin/sh\ncat >> "$HOME/paper"\n' > stubs/lpr
printf '#!/bin/sh\n{ echo "$@"; cat; } >> "$HOME/stored"\n' > stubs/rcvstore
printf '#!/bin/sh\ncat\n' > stubs/program
chmod +x stubs/*
export PATH=$folder/stubs:$programs:$PATH LOGNAME=joe

# A mail whose sender in the envelope is another one than in its header, an automatic answer, and names that are to make
# no file elsewhere: with a dot, a slash and a blank.
mail 15 'From: Sue <header@example.com>\nTo: joe@example.org\nSubject: bounced by\n\na\n'
sed -i '1s/ [^ ]* / envelope@example.com /' mails/15
mail 16 'From: bot@example.com\nTo: joe@example.org\nAuto-Submitted: auto-replied\nSubject: away\n\na\n'
mail 17 'From: bob@example.com\nTo: x@example.org\nSubject: dot\nList-Id: <.forward>\n\na\n'
mail 18 'From: bob@example.com\nTo: x@example.org\nSubject: slash\nList-Id: <../../up>\n\na\n'
mail 19 'From: bob@example.com\nTo: x@example.org\nSubject: blank\nList-Id: <rust .forward>\n\na\n'

# stands TEXT PATTERN: the text stands in a file that the pattern names.
stands() {
    for file in $2; do
        [ -f "$file" ] && grep -qF -- "$1" "$file" && return
    done
    return 1
}

count=$(ls mails | wc -l)
for rc in rcs/*; do
    about=${rc#rcs/}
    export HOME=$folder/homes/$about
    mkdir -p "$HOME/Mail" "$HOME/Maildir" "$HOME/team" "$HOME/backup" "$HOME/.procmail"
    printf ':0:\n* ^TO_dev-list@\nincluded\n' > "$HOME/.procmail/lists.rc"
    printf 'I am away\n' > "$HOME/vacation.txt"
    printf 'all about it\n' > "$HOME/info.txt"
    printf 'eve@example.com\n' > "$HOME/blocked"
    printf 'ann@example.org\n' > "$HOME/friends"
    : > "$HOME/.away"
    cp "$rc" "$HOME/rc"
    cd "$HOME"
    for mail in "$folder"/mails/*; do
        # The large mail is for those that ask for a size.
        [ "${mail##*/}" != 14 ] || grep -q '^\* [<>] [0-9]' rc || continue
        wanted=0
        [ "$about/${mail##*/}" != procmailex.5_Mail_for_an_address_that_is_gone/10 ] || wanted=67
        status=0
        "$program" -a sales "SENDMAIL=$folder/stubs/sendmail" "DEFAULT=$HOME/default" "ORGMAIL=$HOME/orgmail" ./rc \
            < "$mail" >> printed 2>> said || status=$?
        [ "$status" -eq "$wanted" ] || fail "$about ended with status $status over the mail ${mail##*/}: $(cat said)"
    done
    # The spam filter fails over one mail, and only that is logged.
    if cat said Mail/log Maildir/log 2> /dev/null | grep '^procmail: ' > logged; then
        grep -qx '| spamc' rc && [ "$(cat logged)" = 'procmail: Program failure (1) of "spamc"' ] ||
            fail "$about logged: $(cat logged)"
        : > said
    fi
    [ ! -s said ] || fail "$about wrote to standard error: $(cat said)"
    [ ! -e orgmail ] || fail "$about couldn't write to its default mailbox"
    while IFS='|' read -r one pattern text; do
        [ "$one" = "$about" ] || continue
        stands "$text" "$pattern" ||
            fail "$about: '$text' doesn't stand in $pattern; there are: $(find . -type f | sort | paste -sd ' ')"
    done < "$folder/wanted"
    cd "$folder"
done

# A duplicate isn't delivered, a sender is answered once, and no reply or copy goes to a daemon, a list or a loop.
cd "$folder/homes/procmailex.5_Duplicates"
[ "$(grep -c '^Subject: hi' default)" -eq 1 ] || fail "a duplicate was delivered"
[ "$(wc -l < msgid.cache)" -eq 1 ] || fail "the cache is $(cat msgid.cache)"
cd "$folder/homes/procmailex.5_A_vacation_reply"
[ "$(grep -c '^To: ann@example.org' sent)" -eq 1 ] || fail "ann got $(grep -c '^To: ann@example.org' sent) replies"
! grep -q -e MAILER-DAEMON -e 'To: header@' -e 'To: bot@' sent || fail "a daemon, a header or a robot got a reply"
# bob got one for another mail than that with our X-Loop, and the reply goes to the address in the cache.
[ "$(sed -n 's/^To: //p' sent | sort)" = "$(sort vacation.cache)" ] || fail "the replies aren't to those of the cache"
grep -qx 'To: envelope@example.com' sent || fail "the envelope's sender got no reply"
! grep -q '^Subject: Re: loop' sent || fail "a mail that came back was answered"
[ "$(grep -c '^X-Loop: joe@example.org' sent)" -eq "$(grep -c '^To: ' sent)" ] || fail "a reply lacks X-Loop"
[ "$(grep -c '^Subject: ' default)" -eq $((count - 1)) ] || fail "the vacation's mails weren't all delivered"

# No name of a mail makes a file elsewhere, and no file in a maildir begins with the line of a mailbox.
for list in Mailing_lists_into_mailboxes Maildirs_for_an_IMAP_server; do
    cd "$folder/homes/procmailex.5_$list"
    [ ! -e .forward ] && [ ! -e up ] && [ ! -e ../up ] && [ ! -e Maildir/up ] || fail "$list: a mail named a file elsewhere"
done
! grep -l '^From [^ ]* Thu' Maildir/new/* Maildir/.lists*/new/* || fail "these files have the line of a mailbox"
[ "$(cat Maildir/new/* Maildir/.lists*/new/* | grep -c '^Subject: ')" -eq $((count - 1)) ] || fail "a maildir lacks a mail"
cd "$folder/homes/procmailex.5_Forwarding_without_loops"
! grep -q '^Subject: loop' sent || fail "a mail that came back was forwarded again"

# The temporary file is removed, and EXITCODE is the exit status.
cd "$folder/homes/procmailex.5_Temporary_files"
! ls body.* 2> /dev/null || fail "temporary files are left"
cd "$folder/homes/procmailex.5_The_exit_status"
: > .closed
status=0
HOME=$PWD "$program" "DEFAULT=$PWD/default" ./rc < "$folder/mails/29" || status=$?
[ "$status" -eq 67 ] || fail "the exit status 67 is $status"

# The script for a system mailbox: all mails are delivered but the one that can't be, which stays for the next run.
cd "$folder"
awk '/^\.Ss / { here = ($0 ~ /system mailbox/) } here && /^\.Bd -literal/ { inside = 1; next }
    /^\.Ed/ { inside = 0 } inside' "$pages/procmail.1" |
    sed "s/\\\\(aq/'/g; s/\\\\-/-/g; s/\\\\e/\\\\/g" > deliver
export LOGNAME=pages-test-$$ HOME=$folder/homes/system
inbox=/var/mail/$LOGNAME
mkdir "$HOME"
printf ':0:\n* ^Subject: hi\ninbox\n\n:0\nlater/mails\n' > "$HOME/.procmailrc"
if touch "$inbox" 2> /dev/null && command -v flock > /dev/null; then
    trap 'rm -rf "$folder" "$inbox" "$inbox.lock"' EXIT
    for mail in 01 03 02; do cat "mails/$mail"; echo; done > "$inbox"
    printf '#!/bin/sh\nexec "%s" DEFAULT= ORGMAIL= "$@"\n' "$program" > stubs/procmail
    chmod +x stubs/procmail
    sh deliver 2> said || fail "the script for a system mailbox ended with $?"
    [ "$(grep -c '^Subject: hi' "$HOME/inbox")" -eq 2 ] || fail "the system mailbox wasn't delivered: $(cat said)"
    grep -q '^Subject: list' "$HOME/.newmail" && [ ! -s "$inbox" ] || fail "the mail that failed isn't in .newmail"
    mkdir "$HOME/later"
    sh deliver 2> said || fail "the script for a system mailbox ended with $?: $(cat said)"
    grep -q '^Subject: list' "$HOME/later/mails" && [ ! -e "$HOME/.newmail" ] || fail "the mail isn't delivered later"
    [ ! -e "$inbox.lock" ] || fail "the lock of the system mailbox is left"
else
    echo "$name: no file can be made in /var/mail here: the script for a system mailbox: skipped"
fi
echo "$name: passed, with $(ls "$folder/rcs" | wc -l) rcfiles of the pages"
