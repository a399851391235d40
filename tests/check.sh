#!/usr/bin/env bash
# The built program procmail-check: each code is found in a small rcfile, and not in one that is right. The rcfiles of
# examples/ and of the manual pages have no finding. It is run by its statuses, formats, options and included rcfiles; it
# makes no call that changes a file, and a large rcfile takes time in proportion.
set -eu
. "$(dirname "$0")/common.bash"
. "$top/tests/page_rcfiles.bash"
check=$programs/procmail-check
export HOME=$folder/home LOGNAME=joe
mkdir home

# ends STATUS ARGUMENT..: the exit status; what was printed is in out and said.
ends() {
    local wanted=$1 status=0
    shift
    "$check" "$@" > out 2> said || status=$?
    [ "$status" -eq "$wanted" ] || fail "$*: status $status, not $wanted: $(cat out said)"
}

options=()

# finds CODE TEXT: the text, with \n for a newline, has a finding with this code; lacks CODE TEXT: it has none.
finds() {
    printf '%b' "$2" > rc
    "$check" --no-disk "${options[@]}" ./rc > out 2> said || true
    grep -q "\[$1\]\$" out || fail "$1 isn't found in '$2': $(cat out said)"
}

lacks() {
    printf '%b' "$2" > rc
    "$check" --no-disk "${options[@]}" ./rc > out 2> said || true
    ! grep -q "\[$1\]\$" out || fail "$1 is found in '$2': $(cat out)"
}

# Each code: what is wrong, and what is right.
cat > rows <<'ROWS'
defect
(what)\n
# what\n
defect
:0:\n* ^Subject: x\n
:0:\n* ^Subject: x\nmbox\n
defect
:0\n* ^Subject: x\n{\n:0:\nmbox\n
:0\n* ^Subject: x\n{\n:0:\nmbox\n}\n
defect
X="one\n
X="one"\n
defect
* ^Subject: x\n
:0:\n* ^Subject: x\nmbox\n
defect
0:\n* ^Subject: x\nmbox\n
:0:\n* ^Subject: x\nmbox\n
defect
:2:\n^Subject: x\n^From: y\nmbox\n
:0:\n* ^Subject: x\n* ^From: y\nmbox\n
defect
\xef\xbb\xbf:0:\nmbox\n
:0:\nmbox\n
weight
:0:\n* 9876543210^0 ^Subject: x\nmbox\n
:0:\n* 987654321^0 ^Subject: x\nmbox\n
size
:0:\n* < many\nmbox\n
:0:\n* < 1000\nmbox\n
expression
:0:\n* ^Subject: (x\nmbox\n
:0:\n* ^Subject: (x)\nmbox\n
expression
:0:\n* ^Subject: [x\nmbox\n
:0:\n* ^Subject: [x]\nmbox\n
no-star
:0:\n^Subject: x\nmbox\n
:0:\n* ^Subject: x\nmbox\n
colon-variable
FLAGS=c\n:0 $FLAGS\nmbox\n
:0 c:\nmbox\n
no-lock
:0\nmbox\n
:0:\nmbox\n
no-lock
:0\n* ^Subject: x\nlists/rust\n
:0\n* ^Subject: x\nlists/rust/\n
words
:0:\nSent Items\n
:0:\n"Sent Items"\n
dot
:0:\n* ^From:.*@example.org\nmbox\n
:0:\n* ^From:.*@example\\.org\nmbox\n
unanchored
:0:\n* Subject: x\nmbox\n
:0:\n* ^Subject: x\nmbox\n
plus
:0:\n* ^To:.*joe+work@example\\.org\nmbox\n
:0:\n* ^To:.*joe\\+work@example\\.org\nmbox\n
tag
:0:\n* ^Subject:.*[list]\nmbox\n
:0:\n* ^Subject:.*\\[list\\]\nmbox\n
pcre
:0:\n* ^Subject:.*\\bsale\\b\nmbox\n
:0:\n* ^Subject:.*\\<sale\\>\nmbox\n
pcre
:0:\n* ^Subject:.*\\d\\d\nmbox\n
:0:\n* ^Subject:.*[0-9][0-9]\nmbox\n
comment
:0:\n* ^Subject: x # sales\nmbox\n
# sales\n:0:\n* ^Subject: x\nmbox\n
filter-w
:0 f\n| spamc\n
:0 fw\n| spamc\n
pipe-f
:0 h\n| formail -A "X-Seen: yes"\n
:0 fhw\n| formail -A "X-Seen: yes"\n
loop
:0 c\n! joe@example.net\n
:0 c\n* ! ^X-Loop: joe@example\\.org\n! joe@example.net\n
lost-part
:0 h:\nmbox\n
:0 hc:\nheaders\n
formail-lock
:0 Wh: cache.lock\n| formail -D 8192 cache\n
:0 Wh: other.lock\n| formail -D 8192 cache\n
tilde
MAILDIR=~/Mail\n
MAILDIR=$HOME/Mail\n
bare-word
:0 c:\nmbox\nother\n
:0 c:\nmbox\n:0:\nother\n
dev
:0\n/dev/nul\n
:0\n/dev/null\n
unreachable
:0:\nmbox\n\n:0:\n* ^Subject: x\nother\n
:0:\n* ^Subject: x\nother\n\n:0:\nmbox\n
ROWS
count=0
while IFS= read -r code && IFS= read -r wrong && IFS= read -r right; do
    finds "$code" "$wrong"
    lacks "$code" "$right"
    count=$((count + 1))
done < rows
[ "$count" -ge 30 ] || fail "only $count rows were read"

# All that is found in a text, as LINE:COLUMN CODE: a mistake, and beside it a right form of it.
cat > exact_rows <<'ROWS'
:0:\n* ^TO_joe\ninbox\n
nothing
A=b\n  what, is it\n
2:3 defect
:0 x:\ninbox\n
1:1 defect
:0:\n* ^TO_joe\n\n:0:\ninbox\n
1:1 defect
:0 x\n* ^TO_joe\n
1:1 defect, 1:1 defect
:0\n{\nA=b\n
1:1 defect
:0:\n* 9999999999^1 x\n* (\n* a)\n* [z-a]\ninbox\n
2:1 weight, 3:1 expression, 4:1 expression, 5:1 expression
:0:\n* < 10 KB\n* > \n* ! < 10\n* $ < $X\n* 5^1 ! < 10\ninbox\n
2:1 size, 3:1 size, 6:1 size
:0:\n  * \\\n ( \\\n* $ (\n* ? ((\n* B ?? ! [\ninbox\n
2:3 expression, 6:1 expression
A="b\n:0:\ninbox\n
1:1 defect
* ^TO_joe\n
1:1 defect
:0\ninbox\n
2:1 no-lock
:0\ninbox/\n:0 c\nmh/.\n:0 c\n$DEFAULT\n:0 c\n/dev/null\n
nothing
:0 c\n| cat >> log\n:0 c\n| cat 2>>errors\n:0 c:\n| cat >> log\n
2:1 no-lock
:0:\n{\n:0 c\ninbox\n}\nLOCKFILE=all\n:0\ninbox\n
nothing
:0:\nSent Items\n:0 c:\ninbox archive\n
2:1 words
:0:\n* ^From:.*joe@example.org\n* ^From:.*@example\\.org\ninbox\n
2:1 dot
:0:\n* Subject:.*x\n* ^Subject:.*x\n* B ?? Subject:\ninbox\n
2:1 unanchored
:0:\n* ^TO_joe+work@x\n* ^TO_joe\\+work@x\n* ^TO_[a-z]+@x\ninbox\n
2:1 plus
:0:\n* ^Subject:.*[users]\n* ^Subject:.*\\[users\\]\n* ^Subject:.*[a-z]\ninbox\n
2:1 tag
:0:\n* ^Subject:.*\\bx\n* ^Subject: x{2,3}\n* ^Subject:.*\\<x\ninbox\n
2:1 pcre, 3:1 pcre
:0:\n* ^TO_joe # me\n* ? true # me\ninbox\n
2:1 comment
:0:\n^TO_joe\n
2:1 no-star
:0 f\n| cat\n:0 fw\n| cat\n
2:1 filter-w
:0\n| formail -A "X-Seen: 1"\n:0 fw\n| formail -A "X-Seen: 1"\n
2:1 pipe-f
:0 c\n! joe@example.org\n
2:1 loop
:0 c\n* ! ^X-Loop: joe\n! joe@example.org\n
nothing
:0 h:\ninbox\n:0 hc:\ninbox\n:0 h\n/dev/null\n
2:1 lost-part
:0 Wh: msgid.lock\n| formail -D 8192 msgid\n:0 Wh: m.lock\n| formail -D 8192 msgid\n
2:1 formail-lock
MAILDIR=~/Mail\n:0:\n~/inbox\n
1:1 tilde, 3:1 tilde
:0:\n* ^TO_joe\ninbox\narchive\n\n:0 c:\ninbox\n\nlast\nVERBOSE\n
4:1 bare-word
:0:\ninbox\n\n:0:\n* ^TO_joe\njoe\n
5:1 unreachable
:0 $FLAGS:\ninbox\n:0 c: # $5\ninbox\n:0 c\n/dev/tty\n
1:1 defect, 1:1 colon-variable, 6:1 dev
ROWS
exact_count=0
while IFS= read -r text && IFS= read -r wanted; do
    printf '%b' "$text" > rc
    "$check" --no-disk ./rc > out 2> said || true
    found=$(sed 's/^[^:]*:\([0-9]*:[0-9]*\): .* \[\(.*\)\]$/\1 \2/' out | paste -sd , | sed 's/,/, /g')
    [ "${found:-nothing}" = "$wanted" ] || fail "in '$text' is $wanted, and this is found: $(cat out said)"
    exact_count=$((exact_count + 1))
done < exact_rows
[ "$exact_count" -eq 33 ] || fail "only $exact_count texts were read"

# The forms of procmail 3.22: the old form, and what has the form no more.
cat > old_rows <<'ROWS'
umask
UMASK=007\n
MASK=007\n
verbose
VERBOSE=on\n
# VERBOSE=on\n
timeout
TIMEOUT=60\n
OUT=60\n
no-effect
LINEBUF=65536\n
BUF=65536\n
no-effect
COMSAT=no\n
# COMSAT=no\n
host
EXITCODE=75 HOST\n
EXITCODE=75 HOST=\n
exitcode
EXITCODE=0\n
EXITCODE=75\n
delivered
DELIVERED=on\n
DELIVERED="yes"\n
logabstract
LOGABSTRACT=yes\n
LOGABSTRACT=all\n
default-program
DEFAULT="|cat"\n
DEFAULT=mbox\n
lockfile
LOCKFILE=my.lock\n
LOCKFILE=\n
open-brace
X=${Y:- "z"}\n
X="${Y:-z z}"\n
arguments
X="$@"\n
X='$@'\n
underscore
X=$_x\n
X="$_"x\n
brace-form
X=${1}\n
X=${Y:-1}\n
brace-form
X=${Y%z}\n
X='${Y%z}'\n
brace-form
X=${$Y:-z}\n
X=${Y:-$Z}\n
brace-command
X=${Y:-`date`}\n
X=`date`${Y:-z}\n
score
:0:\n* ^Subject: x\nmbox\nX=$=\n
:0:\n* 1^0 ^Subject: x\nmbox\nX=$=\n
first-chain
:0\n* ^Subject: x\n{\n:0 A:\nmbox\n}\n
:0\n* ^Subject: x\n{\n:0:\nmbox\n:0 A:\nmbox\n}\n
after-block
:0\n* ^Subject: x\n{\nX=y\n}\n:0 e:\nmbox\n
:0\n* ^Subject: x\n{\nX=y\n}\n:0:\nmbox\n:0 e:\nmbox\n
held-lock
LOCKFILE=g\n:0:g\nmbox\n
LOCKFILE=g\n:0:h\nmbox\n
block-lock
:0:b.lock\n{\n:0\nmbox\n}\n
:0\n{\n:0:b.lock\nmbox\n}\n
block-auto-lock
:0:\n{\n:0:\nmbox\n}\n
:0\n{\n:0:\nmbox\n}\n
block-copy
:0 c\n{\n:0:\nmbox\n}\n
:0\n{\n:0 c:\nmbox\n}\n
after-lock
:0 c:prog.lock\n| prog\n:0 e:\nmbox\n
:0 cw:prog.lock\n| prog\n:0 e:\nmbox\n
after-lock
:0:prog.lock\nX=| prog\nY=z\n:0 a:\nmbox\n
:0:prog.lock\nX=| prog\nY=z\n:0 E:\nmbox\n
late-weight
:0:\n* B ?? 1^1 x\nmbox\n
:0:\n* 1^1 B ?? x\nmbox\n
late-weight
:0:\n*$ 9876543210^0 ^Subject: $X\nmbox\n
:0:\n* 2147483647^0 $ ^Subject: $X\nmbox\n
variable-weight
:0:\n* $ $X^0 ^Subject: x\nmbox\n
:0:\n* 5^0 $ ^Subject: $X\nmbox\n
variable-weight
:0:\n* $ -${X}^1 ^Subject: x\nmbox\n
:0:\n* $ ^Subject: ${X}^\nmbox\n
variable-condition
:0:\n* $ $COND\nmbox\n
:0:\n* $ ^Subject: $COND\nmbox\n
after-greatest
:0:\n* 2147483647^0 ^Subject: x\n* ^From: y\nmbox\n
:0:\n* ^From: y\n* 2147483647^0 ^Subject: x\nmbox\n
size-weight
:0:\n* 1^4 > 100\nmbox\n
:0:\n* 1^3 > 100\nmbox\n
continued
:0:\n* $ ^Subject: \\\n  $X\nmbox\n
:0:\n* ^Subject: \\\n  x\nmbox\n
signal-code
:0:\n* X ?? ^^-9^^\nmbox\n
:0:\n* X ?? ^^137^^\nmbox\n
first-backslash
:0:\n* \\<joe\nmbox\n
:0:\n* ()\\<joe\nmbox\n
condition-quote
:0:\n* $ ^Subject: "$X"\nmbox\n
:0:\n* ^Subject: "x"\nmbox\n
inverted-match
:0:\n* ! ^Subject: \\/x\nmbox\n
:0:\n* ^Subject: \\/x\nmbox\n
match-end
:0:\n* ^Subject: \\/.*$\nmbox\n
:0:\n* ^Subject: \\/.*\\$\nmbox\n
match-end
:0:\n* ^Subject:.*\\/hi\\>\nmbox\n
:0:\n* ^Subject:.*\\/hi>\nmbox\n
match-end
:0:\n* B ?? ()\\/(.*$)+\nmbox\n
:0:\n* B ?? ()\\/(.*)+\nmbox\n
match-begin
:0:\n* ()\\/^Subject:.*\nmbox\n
:0:\n* ^\\/Subject:.*\nmbox\n
match-begin
:0:\n* B ?? ()\\/(hi|\\<ho)\nmbox\n
:0:\n* B ?? ()\\/(hi|h(i|\\<o))\nmbox\n
match-begin
X="(\\\nhi|\\<ho)"\n:0:\n*$ B ?? ()\\/$X.*\nmbox\n
X="(\\\nhi|\\<ho)"\nX=hi\n:0:\n*$ B ?? ()\\/$X.*\nmbox\n
match-begin
X='^'\nY="$X|hi"\n:0:\n*$ B ?? ()\\/(${Y})\nmbox\n
X='^'\nY='|hi'\n:0:\n*$ B ?? ()\\/${Y}$X\nmbox\n
match-begin
X='^'\n:0:\n*$ B ?? ()\\/$X.*\nmbox\n
X='^'\n:0\nX=| cat\n:0:\n*$ B ?? ()\\/$X.*\nmbox\n
match-begin
:0:\n* B ?? ()\\/^hi\nmbox\n
:0:\n* B ?? ()\\/^^hi\nmbox\n
weighted-match
:0:\n* 1^1 x\\/[0-9]\nmbox\n
:0:\n* 1^0 x\\/[0-9]\nmbox\n
two-anchors
:0:\n* ^From:.*$^To:\nmbox\n
:0:\n* ^From:.*$To:\nmbox\n
two-blanks
:0:\n* ^Subject: hi  there\nmbox\n
:0:\n* B ?? hi  there\nmbox\n
empty-match
:0:\n* 1^1 B ?? x*\nmbox\n
:0:\n* 1^1 B ?? x\nmbox\n
line-count
:0:\n* 1^1 B ?? ^.*$\nmbox\n
:0:\n* 1^1 B ?? ^\nmbox\n
range
S='[/-,. ]+'\n
S='[-/,. ]+'\n
range
:0:\n* $ ^Subject: [z-a]$X\nmbox\n
:0:\n* $ ^Subject: [a-z]$X\nmbox\n
range
:0:\n* ^Subject: [a-c-e]\nmbox\n
:0:\n* ^Subject: [a-c-]\\[z-a\nmbox\n
range
:0:\n* ^Subject: []-A]\nmbox\n
:0:\n* $ ^Subject: []-a$X-$Y]\nmbox\n
mailboxes
:0:\nmy mail\n
:0:\n"my mail"\n
hash
:0:\nmbox#1\n
:0:\nmbox #1\n
match-name
:0:\nlist-$MATCH\n
:0:\n"list-$MATCH"\n
from-line
:0\nmd/\n
:0 fhw\n| formail -f -I "From "\n:0\nmd/\n
from-line
DEFAULT=$HOME/Maildir/\n
DEFAULT=$HOME/mbox\n
raw
:0 r:\nmbox\n
:0 rw\n| cat\n
own-lock
:0:found\nfound\n
:0:\nfound\n
folder-lock
:0:\nmd/\n
:0\nmd/\n
standard-error
:0 w\n| echo x >&2\n
:0 w\n| echo x 2>&1\n
cache-lock
:0 Wh: msgid.cache$LOCKEXT\n| formail -D 8192 msgid.cache\n
:0 Wh: msgid$LOCKEXT\n| formail -D 8192 msgid.cache\n
cache-lock
LOCKFILE=$CACHE.lock\n:0 Wh\n| $FORMAIL -D 8192 $CACHE\n
:0 Wh\n| $FORMAIL -D 8192 $CACHE\n
cache-options
:0 Wh\n| formail -D 8192 cache -xTo:\n
:0 Wh\n| formail -r -D 8192 cache\n
cache-length
:0 Wh\n| formail -D 2000000 cache\n
:0 Wh\n| formail -D 1048576 cache\n
digest
:0 w\n| formail +1 -ds >>digests\n
:0 w\n| formail +1 -s >>digests\n
old-option
:0 fw\n| formail -B -A "X: y"\n
:0 fw\n| formail -b -A "X: y"\n
split-output
:0 w\n| formail -s formail -xSubject: >>out\n
:0 w\n| formail -s procmail\n
from-appended
:0 w\n| formail -f >>out\n
:0 w\n| formail >>out\n
lock-w
:0:prog.lock\n| prog\n
:0 w:prog.lock\n| prog\n
lock-w
:0 h:\n! ann@x.example\n
:0 h\n! ann@x.example\n
lock-w
:0 i:out.lock\n| prog >>out\n
:0 Wi:out.lock\n| prog >>out\n
lock-w
:0:out.lock\n* ^Subject: x\n| prog >>out\n
:0 c:out.lock\n* ^Subject: x\n| prog >>out\n
reply-field
FROM=`formail -rtzxTo:`\n
FROM=`formail -rt | formail -zxTo:`\n
reply-field
FROM="`formail -rt -xTo:`"\n
FROM=`formail -x To:`\n
reply-keep
:0 fw\n| formail -rk\n
:0 fw\n| formail -r\n
trust-alone
:0 fw\n| formail -t -A "X: y"\n
:0 fw\n| formail -rt -A "X: y"\n
empty-field
:0 fw\n| formail -X ""\n
:0 fw\n| formail -X "To:"\n
empty-field
:0 fw\n| formail -I''\n
:0 fw\n| formail -I'To:'\n
from-removed
:0 fw\n| formail -I "From "\n
:0 fw\n| formail -f -I "From "\n
from-added
:0 fw\n| formail -a "From "\n
:0 fw\n| formail -a "From: x"\n
made-field
:0 fw\n| formail -a Date:\n
:0 fw\n| formail -a "Date: $NOW"\n
partial-name
:0 fw\n| formail -u S\n
:0 fw\n| formail -u Subject:\n
ROWS
old_count=0
while IFS= read -r code && IFS= read -r wrong && IFS= read -r right; do
    options=()
    lacks "$code" "$wrong"
    options=(--from-3.22)
    finds "$code" "$wrong"
    lacks "$code" "$right"
    old_count=$((old_count + 1))
done < old_rows
[ "$old_count" -ge 60 ] || fail "only $old_count rows of forms were read"

# The page has these codes, and those of the disk; --allow takes each.
awk '/^\.S[hs] / { if ($0 == ".Sh CODES") inside = 1; else if ($0 ~ /^\.Sh/) inside = 0 } inside' "$top/man/procmail-check.1" > codes
sed -n 's/^\.It Cm //p' codes | sort > named
{ awk 'NR % 3 == 1' rows; awk 'NR % 3 == 1' old_rows; printf '%s\n' limit maildir path recursion unreadable writable; } | sort -u > wanted
cmp -s wanted named || fail "the codes of the page aren't those of the rows: $(diff wanted named)"
printf ':0:\nmbox\n' > rc
while read -r code; do ends 0 --no-disk --allow "$code" rc; done < named

# Each message of the page is one of the definitions, and the other way round.
sed -n 's/^[a-z_]*_text [A-Za-z.]* =//p; s/^    codes/ codes/p' "$top/crates/check_find/specs/Messages.antt" "$top/crates/check_moving/specs/Messages.antt" |
    sed -n 's/^ codes "\(.*\)"$/\1/p' | sed 's/\\\\/\\/g; s/\\"/"/g' | sort -u > defined
sed -n 's/^\.\(It \)\{0,1\}Dq "\([^"]*\)".*/\2/p' codes | sed 's/\\(ha/^/g; s/\\(ti/~/g; s/\\-/-/g; s/\\(aq/\x27/g; s/\\e/\\/g' | sort -u > named
[ "$(wc -l < defined)" -ge 20 ] && cmp -s defined named || fail "the messages of the page: $(diff defined named)"

# What people keep has no finding: the examples, and the rcfiles of the manual pages.
for rc in "$top"/examples/*.rc; do ends 0 --no-disk "$rc"; done
write_page_rcfiles
for rc in rcs/*; do ends 0 --no-disk "$rc"; done

# The form of a line, and the statuses.
printf ':0\n* ^Subject: x\n  * ^From: (y\nmbox\n' > rc
ends 2 --no-disk rc
grep -q '^rc:3:[0-9]*: error: the regular expression is not valid \[expression\]$' out || fail "a line: $(cat out)"
printf ':0\nmbox\n' > rc
ends 1 --no-disk rc
cp rc $'r\177\001c'
ends 1 --no-disk $'./r\177\001c'
grep -q '^\./r  c:2:1: warning: ' out || fail "control characters in a name: $(cat out)"
printf ':0:\nmbox\n' > rc
ends 0 --no-disk rc
[ ! -s out ] || fail "a right rcfile: $(cat out)"
ends 66 none
[ "$(cat said)" = "procmail-check: can't read none" ] && [ ! -s out ] || fail "a missing rcfile: $(cat said)"
ends 66
ends 64 --format xml rc
ends 64 --allow nothing rc
ends 64 1X=y rc
ends 64 -x rc
ends 0 --help
for option in $(sed -n 's/^\.It Fl \([^ ]*\).*/-\1/p' "$top/man/procmail-check.1"); do
    grep -q -e "$option" out || fail "--help has no $option: $(cat out)"
done
ends 0 --version
[ "$(cat out)" = "procmail-check $(cat "$top/VERSION")" ] || fail "--version: $(cat out)"
(unset HOME; "$check" > out 2> said) && fail "without HOME" || [ $? -eq 64 ] || fail "without HOME: $(cat said)"
cp rc home/.procmailrc
ends 0
printf ':0\nmbox\n' > home/.procmailrc
ends 1
grep -q "^$HOME/.procmailrc:2:" out || fail "the user's own rcfile: $(cat out)"
ends 1 - < home/.procmailrc
grep -q "^-:2:" out || fail "standard input: $(cat out)"
ends 1 -q - < home/.procmailrc
[ ! -s out ] || fail "-q prints: $(cat out)"

# Codes that are allowed, by the option and by a comment.
ends 0 --allow no-lock home/.procmailrc
ends 1 --allow words home/.procmailrc
printf ':0\n# check: allow words no-lock\nmbox\n' > rc
ends 0 --no-disk rc
printf ':0\n# check: allow words\nmbox\n' > rc
ends 1 --no-disk rc
printf ':0\n# check: allow no-lock\n\nmbox\n' > rc
ends 1 --no-disk rc

# The other formats.
printf ':0\n* ^Subject: (x\nmbox\n:0 c\nother\n' > 'an rc'
ends 2 --no-disk --format json 'an rc'
if command -v jq > /dev/null; then
    [ "$(jq -r '.errors, .warnings, .findings[0].file, .findings[1].code' out | paste -sd ' ')" = '1 2 an rc no-lock' ] ||
        fail "JSON: $(cat out)"
    jq -e '.findings | all(.line >= 1 and .column >= 1 and .message != "" and .severity != "")' out > same || fail "JSON: $(cat out)"
    ends 2 --no-disk --format sarif 'an rc'
    [ "$(jq -r '.version, .runs[0].tool.driver.name' out | paste -sd ' ')" = '2.1.0 procmail-check' ] || fail "SARIF: $(cat out)"
    [ "$(jq -r '.runs[0].results[] | select(.ruleId == "expression") | .level, .locations[0].physicalLocation.artifactLocation.uri,
        (.locations[0].physicalLocation.region | .startLine, .startColumn)' out | paste -sd ' ')" = 'error an%20rc 2 1' ] ||
        fail "SARIF: $(cat out)"
    # A path of a URI: slashes and what RFC 3986 calls unreserved are themselves, and all other bytes are percent-encoded.
    mkdir -p sub
    odd=$'sub/AZaz09-._~ !"#$%&\'()*+,:;<>?@[]^`{|}\xc3\xa9'
    cp 'an rc' "$odd"
    ends 2 --no-disk --format sarif "./$odd"
    [ "$(jq -r '.runs[0].results[0].locations[0].physicalLocation.artifactLocation.uri' out)" = \
        './sub/AZaz09-._~%20%21%22%23%24%25%26%27%28%29%2A%2B%2C%3A%3B%3C%3E%3F%40%5B%5D%5E%60%7B%7C%7D%C3%A9' ] || fail "a URI: $(cat out)"
else
    echo "$name: no jq here: the members of JSON and SARIF: skipped"
fi

# Rcfiles that are named: by a fixed name, relative to MAILDIR, and not after a value that depends on the mail.
mkdir -p home/Mail home/rcs
printf ':0\nmbox\n' > home/Mail/one.rc
cp home/Mail/one.rc home/rcs/two.rc
printf 'MAILDIR=$HOME/Mail\nRCS=$HOME/rcs\nINCLUDERC=one.rc\nSWITCHRC="${RCS}/two.rc"\n' > home/.procmailrc
ends 1
[ "$(cut -d : -f 1 out | paste -sd ' ')" = "$HOME/Mail/one.rc $HOME/rcs/two.rc" ] || fail "included rcfiles: $(cat out)"
ends 0 --no-disk
printf 'MAILDIR=Mail\n:0\n* ^Subject: x\n{ RCS=$HOME }\nINCLUDERC=$RCS/none.rc\nINCLUDERC=$MATCH.rc\nINCLUDERC=`date`\n' > home/.procmailrc
ends 0 RCS=rcs
printf 'INCLUDERC=$RCS/two.rc\nINCLUDERC=$RCS/two.rc\n' > home/.procmailrc
ends 1 RCS=rcs
[ "$(wc -l < out)" -eq 1 ] || fail "an rcfile is read twice: $(cat out)"

# What the disk shows.
printf 'MAILDIR=$HOME/none\nINCLUDERC=none.rc\nINCLUDERC=.procmailrc\n' > home/.procmailrc
ends 1
[ "$(sed 's/.*\[\(.*\)\]$/\1/' out | paste -sd ' ')" = 'maildir unreadable recursion' ] || fail "the disk: $(cat out)"
ends 0 --no-disk
printf ':0:\nmbox\n' > home/Mail/open.rc
chmod 666 home/Mail/open.rc
printf 'INCLUDERC=Mail/open.rc\n' > home/.procmailrc
ends 1
grep -q "^$HOME/Mail/open.rc:1:1: warning: .* \[writable\]$" out || fail "a writable rcfile: $(cat out)"
(cd home/Mail && ln -sf ../.procmailrc rc && cd .. && "$check" -m ./.procmailrc > ../out) && fail "-m: $(cat out)"
cd home && mkdir -p there && printf 'INCLUDERC=there/open.rc\n' > m.rc && cp Mail/open.rc there/ && chmod 644 there/open.rc
cd "$folder/home" && "$check" -m m.rc > ../out || fail "-m: $(cat ../out)"
cd "$folder"

# It makes no call that changes a file or starts a program.
if command -v strace > /dev/null && strace -f -o calls true 2> /dev/null; then
    printf 'INCLUDERC=Mail/one.rc\nX=`touch made`\n:0\n* ? touch made\n| touch made\n' > home/.procmailrc
    strace -f -o calls "$check" > out 2> said || true
    ! grep -E '^[0-9]+ +(rename|unlink|mkdir|rmdir|link|symlink|truncate|ftruncate|chmod|fchmod|chown|mknod|fork|vfork|utime)' calls ||
        fail "calls that change files"
    ! grep -E 'O_(WRONLY|RDWR|CREAT|TRUNC|APPEND)' calls || fail "files are opened for writing"
    [ "$(grep -c execve calls)" -eq 1 ] && ! grep -q 'clone' calls || fail "a program is started"
    [ ! -e made ] && [ ! -e home/made ] || fail "a command was executed"
else
    echo "$name: no strace here: the calls: skipped"
fi

# A rcfile that is too long, and time in proportion to the text.
cat "$top"/examples/*.rc > part
while [ "$(wc -c < part)" -lt 65536 ]; do cat part part > twice && mv twice part; done
head -c 65536 part | sed '$d' > small
for _ in $(seq 16); do cat small; done > large
{ cat large; head -c 100000 large; } > over
ends 2 --no-disk over
grep -q '^over:1:1: error: .* \[limit\]$' out || fail "an rcfile that is too long: $(cat out)"
# checks COUNT FILE: milliseconds of a processor that so many checks of the file take.
checks() {
    local TIMEFORMAT='%U %S'
    { time for _ in $(seq "$1"); do "$check" --no-disk -q "$2" > printed 2>&1 || true; done; } 2>&1 |
        awk '{ printf "%d\n", ($1 + $2) * 1000 }'
}
small_time=$(checks 16 small)
large_time=$(checks 1 large)
[ "$large_time" -lt 1000 ] || fail "1 MiB takes $large_time ms of a processor"
[ "$large_time" -le $((small_time * 3 / 2)) ] || fail "64 KiB sixteen times take $small_time ms, 1 MiB $large_time ms"
echo "check: passed, with $count rows, $exact_count whole texts and $old_count forms of 3.22; 1 MiB takes $large_time ms of a processor"
