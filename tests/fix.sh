#!/usr/bin/env bash
# procmail-check --fix: each form that it brings over, before and after, as docs/MOVING.md says. Where procmail 3.22 is
# installed, the old text there and the new one here make the same files. It is run on a file without forms, in place, in
# a directory that can't be written to, and on procmail-lib if that is here (PROCMAIL_LIB names its directory).
set -eu
. "$(dirname "$0")/common.bash"
check=$programs/procmail-check
export HOME=$folder/home LOGNAME=joe
mkdir home

cat > mail <<'M'
From joe@example.org Sun Nov 29 10:00:00 2026
From: joe@example.org
To: ann@example.org
Cc: team@example.org
Subject: hi there
Message-ID: <1@example.org>

the body
M

# ends STATUS ARGUMENT..: the exit status; what was printed is in out and said.
ends() {
    local wanted=$1 status=0
    shift
    "$check" "$@" > out 2> said || status=$?
    [ "$status" -eq "$wanted" ] || fail "$*: status $status, not $wanted: $(cat out said)"
}

old_procmail=$(command -v procmail || true)
if ! { [ -n "$old_procmail" ] && "$old_procmail" -v 2>&1 < /dev/null | grep -q 'v3\.2[23]'; }; then old_procmail=; fi

# delivers PROGRAM PATH RCFILE DIRECTORY: one mail in a new home directory; its files are then listed in the file tree.
delivers() {
    local home=$folder/$4 file status
    rm -rf "$home" && mkdir "$home" && cp "$3" "$home/.procmailrc"
    # 3.22 doesn't wait for a copy that it forwards; the pipe is at its end when all programs that have it have ended.
    (cd "$home" && exec env -i HOME="$home" PATH="$2" LOGNAME=joe timeout 60 "$1" HOME="$home" PATH="$2" LOGNAME=joe \
        SHELL=/bin/sh SENDMAIL=/bin/false DEFAULT="$home/inbox" ORGMAIL="$home/orgmail" LOGFILE=log LOCKSLEEP=1 \
        "$home/.procmailrc" < "$folder/mail" 2>&1) | cat > /dev/null
    status=${PIPESTATUS[0]}
    [ "$status" -eq 0 ] || echo "status $status" >> "$home/status"
    (cd "$home" && find . -type f ! -name .procmailrc ! -name log ! -name '*.cache' | sort | while IFS= read -r file; do
        echo "== $file"
        sed -e '/^From /d' "$file" | sed -e '${/^$/d}'
    done) > "$home.tree"
}

# Each row: its name, `runs` or `stays`; the old text; the new one. `runs` is tried under 3.22 too.
cat > rows <<'ROWS'
host at the end of a line: runs
EXITCODE=75 HOST\n:0:\nmbox\n
EXITCODE=75 HOST=\n:0:\nmbox\n
host before a comment: runs
HOST\t# stop\n:0:\nmbox\n
HOST=\t# stop\n:0:\nmbox\n
variables without an effect: runs
LINEBUF=65536   # long lines\nCOMSAT=no\n:0:\nmbox\n
   # long lines\n\n:0:\nmbox\n
LOGABSTRACT=off: stays
LOGABSTRACT=off\n:0:\nmbox\n
LOGABSTRACT=no\n:0:\nmbox\n
DELIVERED=on: stays
DELIVERED=on\n:0:\nmbox\n
DELIVERED=yes\n:0:\nmbox\n
a blank within a value: runs
X=${Y:- "z z"}\n:0:\n"mbox-$X"\n
X="${Y:-z z}"\n:0:\n"mbox-$X"\n
a blank within a value before a comment: runs
NAME\t= ${NAME:-\t"it's $LOGNAME"}   # "a" name\n:0:\n"mbox-$NAME"\n
NAME\t= "${NAME:-it's $LOGNAME}"   # "a" name\n:0:\n"mbox-$NAME"\n
a count of conditions: runs
:2:\n^Subject: hi\n^From: joe\nmbox\n:1c:\n!^Subject: hi\nother\n
:0:\n* ^Subject: hi\n* ^From: joe\nmbox\n:0c:\n* !^Subject: hi\nother\n
a colon alone: runs
:\n  ^Subject: hi\nmbox\n
:0\n  * ^Subject: hi\nmbox\n
a count with a line that can be something else: stays
:2:\n^Subject: hi\nX=y\nmbox\n
:2:\n^Subject: hi\nX=y\nmbox\n
a filter without w: runs
:0 fbh\n| sed -e s/hi/ho/\n:0:\nmbox\n
:0 fwbh\n| sed -e s/hi/ho/\n:0:\nmbox\n
a lock file without w: runs
:0:prog.lock\n| cat >/dev/null; exit 3\n:0:\nmbox\n
:0 w:prog.lock\n| cat >/dev/null; exit 3\n:0:\nmbox\n
a lock file without a name and without w: runs
:0 h:  # joe\n* ^Subject: hi\n! joe\n:0:\nmbox\n
:0 hw:  # joe\n* ^Subject: hi\n! joe\n:0:\nmbox\n
a lock file of a cache without w: runs
:0 h: m.cache.lock\n| formail -D 8192 m.cache\n:0:\nmbox\n
:0 hw\n| formail -D 8192 m.cache\n:0:\nmbox\n
a lock file of a copy: runs
:0 c:prog.lock\n| cat >/dev/null; exit 3\n:0:\nmbox\n
:0 c:prog.lock\n| cat >/dev/null; exit 3\n:0:\nmbox\n
a weight over the range: runs
:0:\n* 9876543210^0 ^Subject: hi\n* -1^0\nmbox\n
:0:\n* 2147483647^0 ^Subject: hi\n* -1^0\nmbox\n
SUPREME: runs
SUPREME=9876543210\n:0:\n*$ $SUPREME^0 ^Subject: hi\n* -1^0\nmbox\n
SUPREME=9876543210\n:0:\n* 2147483647^0 $ ^Subject: hi\n* -1^0\nmbox\n
a number by a variable: runs
W=10\n:0:\n*$ $W^0 ^Subject: hi\n* -9^0\nmbox\n
W=10\n:0:\n* 10^0 $ ^Subject: hi\n* -9^0\nmbox\n
a number in quotes by a variable in braces: runs
W="10"\n:0:\n* $ -${W}^0 ^Subject: ho\n* 1^0\nmbox\n
W="10"\n:0:\n* -10^0 $ ^Subject: ho\n* 1^0\nmbox\n
a variable with two numbers: stays
W=10\n:0:\n*$ $W^0 ^Subject: hi\n* -9^0\nmbox\nW=20\n
W=10\n:0:\n*$ $W^0 ^Subject: hi\n* -9^0\nmbox\nW=20\n
a number that is given in a block: stays
:0\n* ^Subject: hi\n{ W=10 }\n:0:\n*$ $W^0 ^Subject: hi\nmbox\n
:0\n* ^Subject: hi\n{ W=10 }\n:0:\n*$ $W^0 ^Subject: hi\nmbox\n
a weight after the area: runs
:0:\n* -1^0\n*  B ??  2^1 body\nmbox\n
:0:\n* -1^0\n*  2^1 B ??  body\nmbox\n
a weight after a dollar and a bang: stays
:0:\n*$ 9876543210^0 ! ^Subject: no\nmbox\n
:0:\n* 2147483647^0 $ ! ^Subject: no\nmbox\n
a size by a variable: runs
SIZE=100000\n:0:\n* < $SIZE\nmbox\n
SIZE=100000\n:0:\n* $ < $SIZE\nmbox\n
an inverted size by a variable: runs
LIM=100000\n:0:\n* ! > $LIM\nmbox\n
LIM=100000\n:0:\n* $ ! > $LIM\nmbox\n
a backslash at the beginning: stays
:0:\n* \\<joe\nmbox\n
:0:\n* ()\\<joe\nmbox\n
a backslash after a name: stays
:0:\n* B ?? \\.exe\nmbox\n
:0:\n* B ?? ()\\.exe\nmbox\n
the end of a match: stays
:0:\n* ^Subject: \\/.*$\nmbox\n
:0:\n* ^Subject: \\/.*\nmbox\n
two anchors: stays
:0:\n* ^To:.*$^Cc:\nmbox\n
:0:\n* ^To:.*$Cc:\nmbox\n
blanks after a joined newline: runs
X=ann\n:0:\n*$ ^To: (bob|\\\n      $X)\nmbox\n
X=ann\n:0:\n*$ ^To: (bob|\\\n$X)\nmbox\n
an automatic lock file on a block: runs
:0:\n* ^Subject: hi\n{\n  :0:\n  mbox\n}\n
:0\n* ^Subject: hi\n{\n  :0:\n  mbox\n}\n
an automatic lock file of a maildir: stays
:0 c:   # copies\n* ^Subject: hi\ncopies/\n
:0 c   # copies\n* ^Subject: hi\ncopies/\n
the mailbox as its lock file: stays
:0: found\n* ^Subject: hi\nfound\n
:0: \n* ^Subject: hi\nfound\n
the lock file of a cache: runs
:0 Wh: msgid.cache$LOCKEXT\n| formail -D 8192 msgid.cache\n:0:\nmbox\n
:0 Wh\n| formail -D 8192 msgid.cache\n:0:\nmbox\n
LOCKFILE for a cache: runs
C=$HOME/m.cache\nLOCKFILE=${C}.lock\n:0\n* ? formail -D 8192 $C\nagain\nLOCKFILE\n:0:\nmbox\n
C=$HOME/m.cache\nLOCKFILE=\n:0\n* ? formail -D 8192 $C\nagain\nLOCKFILE\n:0:\nmbox\n
LOCKFILE for a cache that is used after another value: stays
LOCKFILE=$C.lock\nLOCKFILE\n:0 W\n| formail -D 8192 $C\n
LOCKFILE=$C.lock\nLOCKFILE\n:0 W\n| formail -D 8192 $C\n
several words: runs
:0:\nmy mail\n
:0:\nmy\n
a number sign in a name: runs
:0:my.lock\nmbox#1\n
:0:my.lock\nmbox #1\n
MATCH without quotes: runs
:0:\n* ^Subject: \\/[a-z]+\nlist-$MATCH\n
:0:\n* ^Subject: \\/[a-z]+\n"list-$MATCH"\n
the header by an empty name: runs
:0 w\n| formail -X "" >header\n
:0 w\n| sed -e '/^$/q' >header\n
the body by an empty name: runs
:0 w\n| formail -I '' >body\n
:0 w\n| sed -n -e '/^$/,$p' >body\n
the body alone by an empty name: stays
:0 bw\n| formail -I '' >body\n:0 wb\n| formail -X "" >header\n
:0 bw\n| formail -I '' >body\n:0 wb\n| formail -X "" >header\n
an empty name after a recipe that feeds the body alone: runs
:0 bcw\n| cat >body\n:0 w\n| formail -X "" >header\n
:0 bcw\n| cat >body\n:0 w\n| sed -e '/^$/q' >header\n
a field of a reply: runs
TO=`formail -rtzxTo:`\n:0 whi\n| echo "$TO" >to\n
TO=`formail -rt | formail -zxTo:`\n:0 whi\n| echo "$TO" >to\n
a field of a reply, and a blank: runs
TO=`formail -rtzx To:`\n:0 whi\n| echo "$TO" >to\n
TO=`formail -rt | formail -zx To:`\n:0 whi\n| echo "$TO" >to\n
a field of a reply in two words: runs
FORMAIL=formail\nTO="`$FORMAIL -rt -xTo:`"\n:0 whi\n| echo $TO >to\n
FORMAIL=formail\nTO="`$FORMAIL -rt | $FORMAIL -xTo:`"\n:0 whi\n| echo $TO >to\n
a field of a reply is renamed: runs
:0 w\n| formail -rt -R Subject: X-Subject: >reply\n
:0 w\n| formail -f -R Subject: X-Subject:  | formail -rt | formail -f -R Subject: X-Subject: >reply\n
a field of the mail is renamed before the reply: runs
TO=`formail -r -R To: X-To:`\n:0 whi\n| echo "$TO" >to\n
TO=`formail -f -R To: X-To: | formail -r | formail -f -R To: X-To:`\n:0 whi\n| echo "$TO" >to\n
the separator is removed: runs
:0 fhw\n| formail -I "From "\n:0 hw\n| cat >header\n
:0 fhw\n| formail -f -I "From "\n:0 hw\n| cat >header\n
the length of a cache: runs
:0 Wh\n| formail -D 2000000 msgid.cache\n:0:\nmbox\n
:0 Wh\n| formail -D 1048576 msgid.cache\n:0:\nmbox\n
an option of a cache: runs
:0 Wh\n| formail -q- -D 8192 msgid.cache\n:0:\nmbox\n
:0 Wh\n| formail -D 8192 msgid.cache\n:0:\nmbox\n
an option without a reply: runs
:0 w\n| formail -txSubject: >subject\n
:0 w\n| formail -xSubject: >subject\n
a copy by a variable: runs
CC=\n:0 W ${CC:+c}:my.lock\n* ^Subject: hi\n| cat >one\n:0 aw\n| cat >two\n:0:\nmbox\n
CC=\n:0 W c:my.lock\n* ^Subject: hi\n| cat >one\n:0 a\n{\n  :0\n  * ! CC ?? .\n  /dev/null\n}\n:0 aw\n| cat >two\n:0:\nmbox\n
a copy by a variable that is set: runs
CC=yes\n:0 W ${CC:+c}:my.lock\n* ^Subject: hi\n| cat >one\n:0 aw\n| cat >two\n:0:\nmbox\n
CC=yes\n:0 W c:my.lock\n* ^Subject: hi\n| cat >one\n:0 a\n{\n  :0\n  * ! CC ?? .\n  /dev/null\n}\n:0 aw\n| cat >two\n:0:\nmbox\n
a copy by a variable whose program fails: runs
:0\n{\n  :0 W ${CC:+c}\n  | cat >one; false\n  :0 aw\n  | cat >two\n}\n:0 E:\nelse\n:0:\nmbox\n
:0\n{\n  :0 W c\n  | cat >one; false\n:0 a\n{\n  :0\n  * ! CC ?? .\n  /dev/null\n}\n  :0 aw\n  | cat >two\n}\n:0 E:\nelse\n:0:\nmbox\n
a mailbox that a variable makes a copy: runs
CC=yes\n:0 ${CC:+c}:\n* ^Subject: hi\none # it\n:0:\nmbox\n
CC=yes\n:0 c:\n* ^Subject: hi\none # it\n:0 a\n{\n  :0\n  * ! CC ?? .\n  /dev/null\n}\n:0:\nmbox\n
a forward that a variable makes a copy: runs
SENDMAIL=/usr/bin/tee\nSENDMAILFLAGS=-a\nCC=\n:0 ${CC:+c}\n! joe\n:0:\nmbox\n
SENDMAIL=/usr/bin/tee\nSENDMAILFLAGS=-a\nCC=\n:0 c\n! joe\n:0 a\n{\n  :0\n  * ! CC ?? .\n  /dev/null\n}\n:0:\nmbox\n
a filter with a copy by a variable: stays
CC=yes\n:0 fw ${CC:+c}\n| cat\n:0:\nmbox\n
CC=yes\n:0 fw ${CC:+c}\n| cat\n:0:\nmbox\n
a copy by a variable before e: stays
:0 W ${CC:+c}\n| cat >one\n:0 e\n| cat >two\n
:0 W ${CC:+c}\n| cat >one\n:0 e\n| cat >two\n
a copy by a variable before E: stays
:0 W ${CC:+c}\n| cat >one\n:0 a\n| cat >two\n:0 W ${CC:+c}\n| cat >one\n:0 E\n| cat >two\n
:0 W c\n| cat >one\n:0 a\n{\n  :0\n  * ! CC ?? .\n  /dev/null\n}\n:0 a\n| cat >two\n:0 W ${CC:+c}\n| cat >one\n:0 E\n| cat >two\n
the last score: runs
:0\n* ^Subject: hi\n* 9876543210^0\n{ }\n:0:\n* $$=^0\n* -1^0\nmbox\n
:0\n* ^Subject: hi\n* 2147483647^0\n{ }\nLASTSCORE=$=\n:0:\n* 2147483647^0 LASTSCORE ?? ^^2147483647^^\n* -1^0\nmbox\n
the last score, which is 0: runs
:0\n* 9876543210^0 ^Subject: ho\n{ }\n:0:\n* $ $=^0\n* -1^0\nmbox\n
:0\n* 2147483647^0 ^Subject: ho\n{ }\nLASTSCORE=$=\n:0:\n* 2147483647^0 LASTSCORE ?? ^^2147483647^^\n* -1^0\nmbox\n
the last score of several recipes: runs
:0\n* B ?? > 5\n* 9876543210^0\n{ }\n:0\n* $$=^0\n* ! B ?? body\n* 9876543210^0 ^Subject: ho\n{ }\n:0:\n* $$=^0\n* -5^0 ^Subject\nmbox\n
:0\n* B ?? > 5\n* 2147483647^0\n{ }\nLASTSCORE=$=\n:0\n* 2147483647^0 LASTSCORE ?? ^^2147483647^^\n* ! B ?? body\n* 2147483647^0 ^Subject: ho\n{ }\nLASTSCORE=$=\n:0:\n* 2147483647^0 LASTSCORE ?? ^^2147483647^^\n* -5^0 ^Subject\nmbox\n
the last score of the greatest weight as it is: runs
:0\n* ^Subject: hi\n* 2147483647^0\n{ }\n:0:\n* $$=^0\n* -1^0\nmbox\n
:0\n* ^Subject: hi\n* 2147483647^0\n{ }\nLASTSCORE=$=\n:0:\n* 2147483647^0 LASTSCORE ?? ^^2147483647^^\n* -1^0\nmbox\n
the last score of a recipe with other weights: stays
:0\n* 5^0 ^Subject: hi\n{ }\n:0:\n* $ $=^0\nmbox\n
:0\n* 5^0 ^Subject: hi\n{ }\n:0:\n* $ $=^0\nmbox\n
the last score of a recipe whose first weight is another: stays
:0\n* 5^0 ^Subject: hi\n* B ?? body\n{ }\n:0:\n* $ $=^0\nmbox\n
:0\n* 5^0 ^Subject: hi\n* B ?? body\n{ }\n:0:\n* $ $=^0\nmbox\n
the last score before a condition that must hold: stays
:0\n* 2147483647^0 ^Subject: hi\n{ }\n:0:\n* $ $=^0\n* ^Subject: ho\nmbox\n
:0\n* 2147483647^0 ^Subject: hi\n{ }\n:0:\n* $ $=^0\n* ^Subject: ho\nmbox\n
several forms in one recipe: stays
:0 f\n* 9876543210^0 ^Subject: hi\n*$ B ?? $SUPREME^1 x\\\n\t y\n| formail -I 'From '\n
:0 fw\n* 2147483647^0 ^Subject: hi\n* 2147483647^1 $ B ?? x\\\ny\n| formail -f -I 'From '\n
ROWS
count=0
tried=0
while IFS= read -r title; do
    IFS= read -r old
    IFS= read -r new
    printf '%b' "$old" > old.rc
    printf '%b' "$new" > new.rc
    "$check" --fix -q ./old.rc > fixed.rc || [ $? -le 2 ] || fail "$title: status $?"
    cmp -s fixed.rc new.rc || fail "$title: $(diff new.rc fixed.rc)"
    "$check" --fix -q ./new.rc > again.rc || [ $? -le 2 ]
    cmp -s again.rc new.rc || fail "$title: a second time: $(diff new.rc again.rc)"
    count=$((count + 1))
    case $title in *": runs") ;; *) continue ;; esac
    [ -n "$old_procmail" ] || continue
    delivers "$old_procmail" /usr/bin:/bin old.rc there
    delivers "$program" "$programs:/usr/bin:/bin" fixed.rc here
    cmp -s there.tree here.tree || fail "$title (left: 3.22 by the old text): $(diff there.tree here.tree)"
    tried=$((tried + 1))
done < rows
[ "$count" -eq 68 ] || fail "only $count rows"
[ -n "$old_procmail" ] || echo "$name: no procmail 3.22 here: what it does with the old texts: skipped"

# What can't be brought over stays, and is reported for the new text; the status says whether anything is left.
printf 'VERBOSE=on\n:0 f\n| cat\n' > rc
ends 1 --fix ./rc
printf 'VERBOSE=on\n:0 fw\n| cat\n' | cmp -s - out || fail "a form that stays: $(cat out)"
grep -q '^\./rc:1:1: warning: .* \[verbose\]$' said && [ "$(wc -l < said)" -eq 1 ] || fail "what is left: $(cat said)"
ends 0 --fix --allow verbose ./rc
[ ! -s said ] || fail "what is allowed: $(cat said)"
ends 1 --fix -q ./rc
[ ! -s said ] || fail "-q: $(cat said)"
printf ':0:\n* 1.5^0 x\n* 9876543210^0 y\nmbox\n' > rc
ends 2 --fix ./rc
grep -q '^\./rc:2:1: error: .* \[weight\]$' said || fail "an error that is left: $(cat said)"
ends 0 --fix - < new.rc
ends 64 --fix ./old.rc ./new.rc
ends 64 --in-place ./old.rc
ends 64 --fix --in-place -
ends 66 --fix ./missing
for example in "$top"/examples/*.rc; do
    "$check" --fix -q "$example" > fixed.rc || [ $? -le 2 ]
    cmp -s fixed.rc "$example" || fail "${example##*/} is changed: $(diff "$example" fixed.rc)"
done

# In place: the old file stays as RCFILE.orig, with the mode of the old one, also by a link; nothing else is written.
printf ':0 f\n| cat\n' > old.rc
printf ':0 fw\n| cat\n' > new.rc
cp old.rc rc && chmod 640 rc && ln -s rc link
ends 0 --fix --in-place ./link
cmp -s rc new.rc && cmp -s rc.orig old.rc || fail "in place: $(diff rc new.rc)"
[ "$(stat -c %a rc)" = 640 ] && [ "$(stat -c %a rc.orig)" = 640 ] || fail "the mode of a file in place: $(stat -c '%a %n' rc*)"
[ -L link ] && [ ! -s out ] && [ ! -e rc.new ] || fail "other files in place: $(ls)"
before=$(stat -c '%i %Y %Z' rc)
ends 0 --fix --in-place ./rc
[ "$(stat -c '%i %Y %Z' rc)" = "$before" ] || fail "a file without forms is written"
# unchanged WHY: the rcfile could not be written.
unchanged() {
    [ "$(ls "$1" | sort | tr '\n' ' ')" = "$2" ] && cmp -s "$1/rc" old.rc || fail "$3: $(ls "$1")"
    grep -q "^procmail-check: can't write $1/rc: " said || fail "$3: $(cat said)"
}
mkdir kept && cp old.rc kept/rc && : > kept/rc.orig
ends 73 --fix --in-place kept/rc
unchanged kept "rc rc.orig " "an older RCFILE.orig"
[ ! -s kept/rc.orig ] || fail "an older RCFILE.orig is written over"
mkdir -p busy/rc.new && cp old.rc busy/rc
ends 73 --fix --in-place busy/rc
unchanged busy "rc rc.new " "a name that is taken"
mkdir full && cp old.rc full/rc
status=0
(trap '' XFSZ && ulimit -f 0 && exec "$check" --fix --in-place full/rc > /dev/null 2> /dev/null) || status=$?
[ "$status" -eq 73 ] && [ "$(ls full)" = rc ] && cmp -s full/rc old.rc || fail "a file that can't grow: $status: $(ls full)"
if [ "$(id -u)" -ne 0 ]; then
    mkdir closed && cp old.rc closed/rc && chmod 555 closed
    ends 73 --fix --in-place closed/rc
    unchanged closed "rc " "a directory that can't be written to"
    chmod 755 closed
else
    echo "$name: as root: a directory that can't be written to: skipped"
fi

# procmail-lib: what is left of the kinds that are brought over.
modules=${PROCMAIL_LIB:-/usr/share/procmail-lib}
if [ ! -d "$modules" ]; then
    echo "$name: no procmail-lib here: skipped"
    echo "$name: passed, $count rows, $tried of them under 3.22"
    exit 0
fi
changed=0
: > before
: > after
mkdir lib
for module in "$modules"/*.rc; do
    "$check" --no-disk --from-3.22 "$module" >> before || [ $? -le 2 ] || fail "$module: $?"
    "$check" --fix "$module" > "lib/${module##*/}" 2>> after || [ $? -le 2 ] || fail "$module: $?"
    cmp -s "$module" "lib/${module##*/}" || changed=$((changed + 1))
    "$check" --fix -q "lib/${module##*/}" > again.rc || [ $? -le 2 ]
    cmp -s again.rc "lib/${module##*/}" || fail "${module##*/}: a second time: $(diff "lib/${module##*/}" again.rc)"
done
# of CODE FILE: how many findings of this code are there.
of() {
    grep -c "\[$1\]\$" "$2" || true
}
for code in host logabstract from-removed; do
    [ "$(of "$code" after)" -eq 0 ] || fail "procmail-lib: $code is left $(of "$code" after) times"
done
for code in variable-weight late-weight no-effect weight first-backslash; do
    [ $(($(of "$code" after) * 4)) -le "$(of "$code" before)" ] ||
        fail "procmail-lib: $code was there $(of "$code" before) times, and is left $(of "$code" after) times"
done
echo "$name: passed, $count rows, $tried of them under 3.22; $changed modules of procmail-lib are changed"
