#!/usr/bin/env bash
# No mail forges another one: 1,000 mails whose bodies try to are delivered to one mailbox, one program each. formail cuts
# the mailbox into just these mails, in their order, and so does formail 3.22, if it is installed. The same holds of what
# formail writes of each mail. The same mails written one after another without either are cut into more; what `formail -s`
# writes of those is cut into as many again.
set -eu
. "$(dirname "$0")/common.bash"
formail=$programs/formail
COUNT=${COUNT:-1000}
export LC_ALL=C

# What a body is made of, as `printf %b` reads it: each line with its newline.
forged='From forged@b.example Thu Jan  1 00:00:00 1970\nX-Number: forged\nSubject: forged\n'
long=$(printf '%070000d' 0)
PARTS=(
    "\n$forged\nforged\n"
    "$forged\n"
    '\n'
    '\n\n\n'
    'plain\n'
    '>From quoted\n'
    '\n>>From quoted twice\n\n>>>From quoted thrice\n'
    '\nFrom \n'
    '\nFrom\n'
    '\n From blank\n\n\tFrom tab\n'
    '\nFROM x\nfrom x\n'
    "\r\nFrom carriage@b.example\r\n"
    "x\rFrom carriage@b.example\n\rFrom \n\n\r\n"
    '\nContent-Length: 3\n\nFrom counted@b.example\nX-Number: forged\nA: b\n'
    'a\00b\n\n\00From zero\n\nFrom zero\00\n\00\n'
)
LONG=("$long\nFrom long@b.example $long\n" "\n$long\n\nFrom $long\nX-Number: forged\nA: b\n")
# What comes last, perhaps without a newline.
ENDS=('' '' '\n' '\n\n\n' '\nFrom ' 'end' '\nFrom end' '\n\nFrom end@b.example\nX-Number: forged\nA: b' '\r')
# What the header has more.
FIELDS=('' '' 'Content-Length: 0\n' 'Content-Length: 9999999\n' 'X-Folded: a\n From b\n' '>From quoted\n' 'X-Empty:\n')

# escape TEXT: into $escaped, with `>` before each line that begins with `From `.
escape() {
    escaped=${1//'\n'From /'\n>'From }
    [ "${1:0:5}" != 'From ' ] || escaped=">$escaped"
}

ESCAPED_PARTS=() ESCAPED_LONG=() ESCAPED_ENDS=()
for text in "${PARTS[@]}"; do
    escape "$text" && ESCAPED_PARTS+=("$escaped")
done
for text in "${LONG[@]}"; do
    escape "$text" && ESCAPED_LONG+=("$escaped")
done
for text in "${ENDS[@]}"; do
    escape "$text" && ESCAPED_ENDS+=("$escaped")
done

# write NUMBER: the mail into mails/NUMBER, what its delivery adds to the mailbox into pieces/NUMBER.
write() {
    local mail piece chosen count
    mail="From sender$1@a.example Thu Jan  1 00:00:00 1970\nX-Number: $1\nSubject: s\n${FIELDS[RANDOM % ${#FIELDS[@]}]}"
    piece=$mail
    if [ $((RANDOM % 20)) -ne 0 ]; then
        mail+='\n'
        piece+='\n'
        for ((count = RANDOM % 8; count > 0; count--)); do
            chosen=$((RANDOM % ${#PARTS[@]}))
            mail+=${PARTS[chosen]}
            piece+=${ESCAPED_PARTS[chosen]}
        done
        if [ $(($1 % 40)) -eq 0 ]; then
            chosen=$((RANDOM % ${#LONG[@]}))
            mail+=${LONG[chosen]}
            piece+=${ESCAPED_LONG[chosen]}
        fi
        chosen=$((RANDOM % ${#ENDS[@]}))
        mail+=${ENDS[chosen]}
        piece+=${ESCAPED_ENDS[chosen]}
    fi
    [ "${piece: -2}" = '\n' ] || piece+='\n'
    [ "${piece: -4}" = '\n\n' ] || piece+='\n'
    printf '%b' "$mail" > "mails/$1"
    printf '%b' "$piece" > "pieces/$1"
}

# pieces FIRST LAST: those of these numbers.
pieces() {
    local number
    for ((number = $1; number <= $2; number++)); do
        printf 'pieces/%s\0' "$number"
    done | xargs -0 -r cat
}

RANDOM=322
mkdir mails pieces
printf ':0\nmbox\n' > rc
for ((number = 1; number <= COUNT; number++)); do
    write $number
    "$program" ./rc < mails/$number || fail "mail $number: status $?"
    printf 'From sender%s@a.example Thu Jan  1 00:00:00 1970\n' $number >> wanted_lines
done
seq $COUNT > wanted_numbers
pieces 1 $COUNT | cmp - mbox || fail 'the mailbox is not the escaped mails, one after another'

RANGES=('0 1' '0 999' '1 1' '400 200' '999 1' '999 9')

# cut MAILBOX PROGRAM OPTION..: this formail cuts the mailbox into the mails, in their order.
cut() {
    local mailbox=$1 range skip total
    shift
    "$@" -X 'From ' -s < "$mailbox" > lines
    cmp lines wanted_lines || fail "$* of $mailbox: $(wc -l < lines) mails, not $COUNT"
    "$@" -zx X-Number: -s < "$mailbox" > numbers
    cmp numbers wanted_numbers || fail "$* of $mailbox: the numbers of the mails differ"
    for range in "${RANGES[@]}"; do
        read -r skip total <<< "$range"
        "$@" "+$skip" "-$total" -X 'From ' -s < "$mailbox" > lines
        tail -n "+$((skip + 1))" wanted_lines | head -n "$total" | cmp - lines \
            || fail "$* +$skip -$total of $mailbox: other mails"
    done
}

cut mbox "$formail"

# The mails come out byte for byte.
"$formail" -s < mbox | cmp - mbox || fail 'formail -s: the mails differ'
for range in "${RANGES[@]}"; do
    read -r skip total <<< "$range"
    pieces $((skip + 1)) $((skip + total < COUNT ? skip + total : COUNT)) > want
    "$formail" "+$skip" "-$total" -s < mbox | cmp - want || fail "formail +$skip -$total -s: the mails differ"
done

# Each program that formail starts gets one mail.
"$formail" -s sh -c 'wc -c >> sizes' < mbox
for ((number = 1; number <= COUNT; number++)); do
    wc -c < pieces/$number
done > want
cmp sizes want || fail 'formail -s PROGRAM: the sizes of the mails differ'

# What formail writes of each mail, one program each, is one mail.
for ((number = 1; number <= COUNT; number++)); do
    "$formail" -A 'X-By: formail' < mails/$number || fail "formail of mail $number: status $?"
done > written
cut written "$formail"

# So the mails are as hostile as they look.
for ((number = 1; number <= COUNT; number++)); do
    cat mails/$number
    printf '\n\n'
done > unescaped
found=$("$formail" -X 'From ' -s < unescaped | grep -c '^From ')
[ "$found" -gt $((2 * COUNT)) ] || fail "without escapes there are only $found mails"

# What formail writes of those is cut into just as many, each of which has its new field.
"$formail" -A 'X-By: formail' -s < unescaped > again
count=$("$formail" -X 'From ' -s < again | grep -c '^From ')
[ "$count" -eq "$found" ] || fail "formail -s makes $count mails of $found"
count=$("$formail" -X X-By: -s < again | grep -c '^X-By: formail$')
[ "$count" -eq "$found" ] || fail "formail -s: $count of $found mails have the new field"

other=$(command -v formail || :)
if [ -n "$other" ] && "$other" -v 2>&1 | grep -q 'v3\.2[23]'; then
    cut mbox "$other" -Y
    cut written "$other" -Y
    echo "forged: $COUNT mails stay $COUNT mails, for formail 3.22 too; without escapes they are $found"
else
    echo "forged: $COUNT mails stay $COUNT mails; without escapes they are $found; formail 3.22: skipped"
fi
