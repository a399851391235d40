#!/usr/bin/env bash
# The built program procmail-test: each kind of destination, by rcfiles whose real deliveries by bin/procmail go to the same
# places; the examples; wrong expectations, torn files, files that aren't there, and names of all bytes; nothing is changed.
set -eu
. "$(dirname "$0")/common.bash"
tester=$programs/procmail-test
[ -x "$tester" ] || { echo "$name: no procmail-test here: skipped"; exit 0; }
export LOGNAME=joe

# ends STATUS ARGUMENT..: the exit status; what was printed is in out and said.
ends() {
    local wanted=$1 status=0
    shift
    "$tester" "$@" > out 2> said || status=$?
    [ "$status" -eq "$wanted" ] || fail "$*: status $status, not $wanted: $(cat out said)"
}

# says LINE: this is all that was said on standard error, and nothing was printed.
says() {
    [ "$(cat said)" = "$1" ] && [ ! -s out ] || fail "said $(cat said), not $1; printed $(cat out)"
}

# left HOME: the files of a home directory with their sums.
left() { (cd "$1" && find . -exec stat -c '%n %s %Y %a' {} + | sort && find . -type f -exec cksum {} + | sort); }

# The examples, and the same mails for real.
mkdir -p home/Mail/lists
export HOME=$folder/home
ends 0 "$top/examples/tests.txt"
printf 'TAP version 13\n1..2\nok 1 - list-message\nok 2 - message\n' | cmp -s - out || fail "the examples: $(cat out)"
[ -z "$(find home -type f)" ] || fail "the examples left $(find home -type f)"
mkdir -p real/Mail/lists
for mail in list-message message; do
    env -i HOME="$folder/real" LOGNAME=joe "$program" "$top/examples/lists.rc" < "$top/examples/$mail"
done
[ "$(cd real && find . -type f | sort)" = "$(printf './Mail/%s\n' inbox lists/rust log)" ] ||
    fail "the examples for real: $(find real -type f)"

# Destinations. What the programs do is what procmail-test takes for granted.
mkdir -p stubs home/Mail/md/{new,cur,tmp} home/Mail/mh home/Mail/plain
printf '#!/bin/sh\nexec cat\n' > stubs/filter
printf '#!/bin/sh\ncat > /dev/null\necho "$(basename "$0") $*" >> "$HOME/ran"\n' > stubs/taker
printf '#!/bin/sh\ncat > /dev/null\nexit 1\n' > stubs/fails
cp stubs/taker stubs/sendmail
ln -s "$programs/formail" "$programs/lockfile" stubs/
chmod +x stubs/*
printf 'From ann@example.org Thu Jan  1 00:00:00 1970\nFrom: ann\nSubject: one\n\nbody\n' > one.eml

# places 'DESTINATIONS' 'FILES THAT A REAL RUN LEAVES' RCFILE-LINE..: both programs, with the mail one.eml.
places() {
    local wanted=$1 files=$2 found
    shift 2
    { printf 'MAILDIR=$HOME/Mail\nDEFAULT=inbox\nSENDMAIL=sendmail\nPATH=%s:/bin:/usr/bin\n' "$folder/stubs"; printf '%s\n' "$@"; } > rc
    printf 'rcfile rc\nmail one.eml answer fails=1 answer fails bob=1 -> %s\n' "$wanted" > tests.txt
    left home > before
    "$tester" tests.txt > out 2> said || fail "-> $wanted: status $?: $(cat out said) by $(cat rc)"
    left home > after
    cmp -s before after || fail "-> $wanted changed $(diff before after)"
    rm -rf real
    cp -a home real
    env -i HOME="$folder/real" "$program" "$folder/rc" < one.eml > written || true
    [ ! -s written ] || mv written real/Mail/written
    found=$(cd real && find . -type f ! -name procmail-test.log | sed 's,^\./,,; s,^Mail/,,; s,\(md/new\|plain\)/.*,\1/FILE,' | sort | paste -sd' ')
    [ "$found" = "$files" ] || fail "-> $wanted: a real run leaves '$found', not '$files', by $(cat rc)"
}
places 'Mail/box' 'box' ':0:' 'box'
places '~/Mail/box' 'box' ':0:' 'box'
places "$folder/home/Mail/box" 'box' ':0:' 'box'
places 'default' 'inbox' ':0:' '* ^Subject: two' 'box'
places 'Mail/inbox, status 0' 'inbox' ':0:' '* ^Subject: two' 'box'
places 'default' 'other' 'DEFAULT=other'
places 'Mail/md/' 'md/new/FILE' ':0' 'md/'
places 'Mail/md' 'md/new/FILE' ':0' 'md/'
places 'Mail/mh/.' 'mh/1' ':0' 'mh/.'
places 'Mail/plain' 'plain/FILE' ':0' 'plain'
places 'Mail/one, Mail/two' 'one two' ':0 c:' 'one' '' ':0:' 'two'
places 'Mail/two, Mail/one' 'one two' ':0 c:' 'one' '' ':0:' 'two'
places 'Mail/box, Mail/box' 'box' ':0 c:' 'box' '' ':0:' 'box'
places 'Mail/a, Mail/b' 'a b' ':0' 'a b'
places '/dev/null' '' ':0' '/dev/null'
places '/dev/null' '' ':0' '* ? true' '/dev/null'
places 'standard output' 'written' ':0' '|'
places '| taker x' 'ran' ':0' '| taker x'
places '| taker "a  b" > /dev/null' 'ran' ':0' '| taker "a  b" > /dev/null'
places 'forward bob@example.org' 'ran' ':0' '! bob@example.org'
places 'forward bob@example.org eve@example.org' 'ran' ':0' '! bob@example.org eve@example.org'
places 'forward bob@example.org, Mail/box' 'box ran' ':0 c' '! bob@example.org' '' ':0:' 'box'
places 'forward bob@example.org, default' 'inbox ran' 'SENDMAILFLAGS=' ':0 c' '! bob@example.org'
places 'default' 'inbox' 'SENDMAIL=fails' 'SENDMAILFLAGS=' ':0 w' '! bob'
places '| taker, Mail/box' 'box ran' ':0 c' '| taker' '' ':0:' 'box'
places '| taker, | taker' 'ran' ':0 c' '| taker' '' ':0' '| taker'
# A program of a condition, a filter, a command in backquotes and TRAP's program are no destinations.
places 'Mail/box' 'box' ':0:' '* ? true' 'box'
places 'default' 'inbox' ':0:' '* ? fails' 'box'
places 'default' 'inbox ran' ':0:' '* ? taker' '* ^Subject: two' 'box'
places 'Mail/box' 'box' ':0 fw' '| filter' '' ':0:' 'box'
places 'Mail/box' 'box' 'X=`filter`' ':0:' 'box'
places 'Mail/box' 'box ran' 'TRAP=taker' ':0:' 'box'
# formail and lockfile are answered by their own code, over the files of the test.
places 'Mail/one' 'one' ':0 fhw' '| formail -I "X-Kind: one"' '' ':0:' '* ^X-Kind: one' 'one'
places 'Mail/one' 'one' 'SUBJECT=`formail -zx Subject:`' ':0:' '* SUBJECT ?? ^^one^^' 'one'
places 'Mail/again' 'again cache' ':0 fhw' '| formail -I "Message-ID: 1@example.org"' '' ':0' '* ? formail -D 8192 cache' 'first' '' \
    ':0:' '* ? formail -D 8192 cache' 'again'
places 'Mail/two' 'k.lock two' ':0' '* ! ? lockfile -r 0 k.lock' 'one' '' ':0:' '* ! ? lockfile -r 0 k.lock' 'two'
places 'default' 'inbox' ':0 w' '| fails' ''
places '| fails' '' ':0' '| fails'
places 'Mail/one, Mail/two' 'one two' ':0 c' '{' ':0:' 'one' '}' ':0:' 'two'
places 'status 75' '' 'EXITCODE=75' 'HOST=elsewhere'

# A wrong expectation ends with 1, and the report names the file, the line, and what was wanted and got.
printf 'MAILDIR=$HOME/Mail\n:0 c\n! bob@example.org\n:0:\nbox\n' > rc
cat > tests.txt <<'END'
# comment

rcfile rc
mail one.eml -> Mail/box, forward bob@example.org
mail one.eml -> Mail/box
mail one.eml -> forward bob@example.org, Mail/other, status 0
mail one.eml -> Mail/box, forward bob@example.org, Mail/box
mail one.eml -> Mail/box, forward bob@example.org, status 75
END
ends 1 tests.txt
cat > wanted <<'END'
TAP version 13
1..5
ok 1 - one.eml
not ok 2 - one.eml
  ---
  file: 'tests.txt'
  line: 5
  wanted: 'Mail/box'
  got: 'forward bob@example.org, Mail/box'
  ...
not ok 3 - one.eml
  ---
  file: 'tests.txt'
  line: 6
  wanted: 'forward bob@example.org, Mail/other, status 0'
  got: 'forward bob@example.org, Mail/box, status 0'
  ...
not ok 4 - one.eml
  ---
  file: 'tests.txt'
  line: 7
  wanted: 'Mail/box, forward bob@example.org, Mail/box'
  got: 'forward bob@example.org, Mail/box'
  ...
not ok 5 - one.eml
  ---
  file: 'tests.txt'
  line: 8
  wanted: 'Mail/box, forward bob@example.org, status 75'
  got: 'forward bob@example.org, Mail/box, status 0'
  ...
END
cmp -s wanted out || fail "wrong expectations: $(diff wanted out)"

# Lines may end with CR LF; names are as seen from the file of tests; answers have outputs; several files are one report.
sed 's/$/\r/' tests.txt > crlf.txt
ends 1 crlf.txt
sed 's/crlf\.txt/tests.txt/' out | cmp -s wanted - || fail "CR LF: $(cat out)"
mkdir -p sub
printf 'DEFAULT=Mail/rest\n:0 fw\n| spamc\n:0:\n* ^X-Spam: yes\nMail/junk\n' > sub/rc
printf 'X-Spam: yes\n\nbody\n' > sub/spam.out
printf 'rcfile rc\nmail ../one.eml answer spamc=0:spam.out -> Mail/junk\nmail ../one.eml answer spamc=1:spam.out -> default\n' > sub/tests.txt
ends 0 sub/tests.txt
(cd sub && ends 0 tests.txt && ends 0 "$PWD/tests.txt")
printf 'rcfile ~/.procmailrc\nmail %s/one.eml -> Mail/mine\n' "$folder" > mine.txt
printf ':0:\nMail/mine\n' > home/.procmailrc
ends 0 mine.txt sub/tests.txt
[ "$(grep -c '^ok ' out)" -eq 3 ] && grep -qx '1\.\.3' out || fail "two files: $(cat out)"

# JUnit's XML, with names of all bytes.
odd=$(printf 'a&b<c>"d'\''e\303\244\357\277\277#\\.eml')
cp one.eml "$odd"
{ printf 'rcfile rc\n'; printf 'mail %s -> Mail/<&">\377, status 0\n' "$odd"; printf 'mail one.eml -> forward bob@example.org, Mail/box\n'; } > odd.txt
ends 1 odd.txt
grep -q '^not ok 1 - a&b<c>"d' out && grep -q "^  wanted: 'Mail/<&\">" out || fail "TAP of odd names: $(cat out)"
ends 1 --format junit odd.txt
if command -v python3 > /dev/null; then
    python3 - out <<'END' || fail "JUnit's XML: $(cat out)"
import sys
import xml.etree.ElementTree as tree
suite, = tree.parse(sys.argv[1]).getroot()
assert suite.attrib == {"name": "procmail-test", "tests": "2", "failures": "1"}, suite.attrib
first, second = suite
assert first.get("classname") == "odd.txt" and first.get("name").startswith("2: a&b<c>\"d'e\u00e4\ufffd#"), first.attrib
failure, = first
assert failure.get("message") == 'wanted Mail/<&">\ufffd, status 0; got forward bob@example.org, Mail/box, status 0', failure.attrib
assert failure.text == "odd.txt:2: " + failure.get("message"), failure.text
assert second.get("name") == "3: one.eml" and len(second) == 0
END
fi

# What isn't understood, by file and line.
wrong() { printf "$1" > tests.txt; ends 64 tests.txt; says "procmail-test: tests.txt:$2"; }
wrong '' '0: the file names no rcfile'
wrong '\n# x\n' '2: the file names no rcfile'
wrong 'rcfile rc\n' '1: the file has no test'
wrong 'rcfile rc\nrcfile rc\n' '2: there is an rcfile already'
wrong 'rcfile\n' '1: the name of a file is missing'
wrong 'rcfile rc\nmail -> box\n' '2: the name of a file is missing'
wrong 'rcfile rc\nmails one.eml -> box\n' '2: a line begins with rcfile, mail or #'
wrong 'rcfile rc\nmail one.eml box\n' '2: a test needs -> and its destinations'
wrong 'rcfile rc\nmail one.eml ->\n' '2: a destination is missing'
wrong 'rcfile rc\nmail one.eml -> box,, two\n' '2: a destination is missing'
wrong 'rcfile rc\nmail one.eml -> box, status x\n' '2: a status is a number up to 255'
wrong 'rcfile rc\nmail one.eml -> box, status 256\n' '2: a status is a number up to 255'
wrong 'rcfile rc\nmail one.eml answer x -> box\n' '2: an answer has the form LINE=CODE[:FILE]'
wrong 'rcfile rc\nmail one.eml answer x=300 -> box\n' '2: an answer has the form LINE=CODE[:FILE]'
ends 64
ends 64 --format xml mine.txt
ends 0 --help
ends 0 --version
[ "$(cat out)" = "procmail-test $(cat "$top/VERSION")" ] || fail "--version: $(cat out)"

# What can't be read.
ends 66 none
says 'procmail-test: can'\''t read none'
missing() { printf "$1" > tests.txt; ends 66 tests.txt; says "procmail-test: tests.txt:$2"; }
missing 'rcfile none\nmail one.eml -> x\n' '1: can'\''t read none'
missing 'rcfile rc\nmail one.eml -> x\n\nmail none -> x\n' '4: can'\''t read none'
missing 'rcfile rc\nmail one.eml answer a=0:none -> x\n' '2: can'\''t read none'

# A torn file of tests, and noise, end with a report or a line.
for ((size = 0; size <= $(stat -c %s sub/tests.txt); size += 3)); do
    head -c "$size" sub/tests.txt > sub/torn
    status=0
    "$tester" sub/torn > out 2> said || status=$?
    case $status in
        0 | 1) grep -q '^TAP version 13$' out || fail "torn after $size: $(cat out)" ;;
        64 | 66) grep -q '^procmail-test: sub/torn:[0-9]*: ' said || fail "torn after $size: $(cat said)" ;;
        *) fail "torn after $size: status $status" ;;
    esac
done
head -c 20000 /dev/urandom > noise
ends 64 noise

# No call that writes, makes, moves or removes a file, but to standard output.
if command -v strace > /dev/null; then
    strace -f -o calls "$tester" mine.txt sub/tests.txt > out
    grep -E '^[0-9]* *(open|openat|creat|write|pwrite64|writev|rename|renameat|renameat2|link|linkat|symlink|unlink|unlinkat|mkdir|mkdirat|rmdir|truncate|ftruncate|fallocate|chmod|fchmod|utimensat|mknod|mknodat|execve|clone|clone3|fork|vfork)\(' calls |
        grep -v -E '^[0-9]* *(write|writev)\(1,|^[0-9]* *execve\("[^"]*procmail-test"' |
        grep -v -E '^[0-9]* *open(at)?\(.*O_RDONLY' > changing || true
    [ ! -s changing ] || fail "calls that change something: $(cat changing)"
else
    echo "$name: no strace here: its calls: skipped"
fi
echo "$name: passed"
