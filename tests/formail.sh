#!/usr/bin/env bash
# The built formail on real files: the rows of tests/cases/formail.cases but for those in memory alone. Where formail
# 3.22 is installed, each row that doesn't say that 3.22 differs is compared with what it writes too, and each that
# says so must differ.
set -eu
. "$(dirname "$0")/common.bash"
program=$programs/formail
rows=$top/tests/cases/formail.cases

other=
if command -v formail > /dev/null && formail -v 2>&1 | grep -q 'v3\.2[23]'; then
    other=$(command -v formail)
fi

# outcome PROGRAM INPUT WORD..: the status into $status, the output into the file got.
outcome() {
    status=0
    "$1" "${@:3}" < "$2" > got 2> said || status=$?
}

declare -A texts
count=0
compared=0

# row WORD.. '<' INPUT '->' STATUS [OUTPUT]
row() {
    local words=() wanted
    while [ "$1" != '<' ]; do
        words+=("$1")
        shift
    done
    wanted=$4
    printf '%s' "$2" > input
    printf '%s' "${5-}" > want
    outcome "$program" input "${words[@]}"
    [ "$status" -eq "$wanted" ] || fail "formail ${words[*]}: status $status, not $wanted"
    cmp -s got want || fail "formail ${words[*]}: wrote $(cat got)"
    [ ! -s said ] || fail "formail ${words[*]}: said $(cat said)"
    count=$((count + 1))
    [ -n "$other" ] && [ "$wanted" -eq 0 ] || return 0
    outcome "$other" input "${words[@]}"
    compared=$((compared + 1))
    if cmp -s got want && [ "$status" -eq 0 ]; then
        [ "$differs" = no ] || fail "formail ${words[*]}: 3.22 writes the same"
    else
        [ "$differs" = yes ] || fail "formail ${words[*]}: 3.22 differs"
    fi
}

# A line of words, in which "..\n.." is one word and @NAME a text, as words of the shell.
words_of() {
    sed -e "s/\"\([^\"]*\)\"/\$'\1'/g" -e 's/@\([A-Z][A-Z]*\)/"${texts[\1]}"/g' \
        -e "s/ < / '<' /" -e "s/ -> / '->' /" <<< "$1"
}

set -f
differs=no
alone=no
line=
while IFS= read -r next; do
    case $next in
        '-> '*) line="$line $next"; continue ;;
    esac
    case $line in
        'formail '*) [ "$alone" = yes ] || eval "row $(words_of "${line#formail}")" ;;
        'text '*) eval "set -- $(words_of "$line")" && texts[$2]=$3 ;;
        'about '*)
            differs=no
            alone=no
            case $line in *'3.22 differs') differs=yes ;; *'in memory alone') alone=yes ;; esac
            ;;
    esac
    line=$next
done < <(cat "$rows"; echo)

# A write that fails, and input that can't be read.
printf 'A: 1\n\nb\n' > mail
status=0
"$program" -x A: < mail > /dev/full 2> said || status=$?
[ "$status" -eq 74 ] || fail "a full device gave status $status"
outcome "$program" . -x A:
[ "$status" -eq 74 ] && [ ! -s got ] || fail "a folder as input gave status $status"

# Words that aren't UTF-8 aren't read.
outcome "$program" mail -x $'\xff'
[ "$status" -eq 64 ] || fail "a word that isn't UTF-8 gave status $status"

# Each mail goes to a child of its own, with the program's words and the environment of the run.
kept() {
    rm -f kept
    outcome "$program" "$@"
    [ ! -s got ] && [ ! -s said ] || fail "${*:2} wrote something"
}
printf 'From a\nA: 1\n\nx\n\nFrom b\nB: 2\n\ny\n' > box
kept box -fbs sh -c 'cat >> kept; echo "[$1]" >> kept' name 'a  word'
[ "$status" -eq 0 ] || fail "two children gave status $status"
[ "$(< kept)" = $'From a\nA: 1\n\nx\n\n[a  word]\nFrom b\nB: 2\n\ny\n[a  word]' ] || fail "the children got $(< kept)"
kept box +1 -1 -s sh -c 'cat >> kept'
[ "$status" -eq 0 ] && [ "$(< kept)" = $'From b\nB: 2\n\ny' ] || fail "+1 -1 gave $(< kept)"
kept box +2 -s false
[ "$status" -eq 0 ] || fail "no mail gave status $status"
kept /dev/null -s false
[ "$status" -eq 0 ] || fail "an empty mailbox gave status $status"
kept box -rs sh -c 'cat >> kept'
[ "$(< kept)" = $'To: a\n\nTo: b' ] || fail "the replies were $(< kept)"
SEEN=yes kept box -s sh -c 'cat > /dev/null; echo "$SEEN$FILENO" >> kept; pwd >> kept'
[ "$(< kept)" = "$(printf 'yes\n%s\nyes\n%s' "$PWD" "$PWD")" ] || fail "the children saw $(< kept)"

# A child that ends with another code, one that is killed, one that takes less than all, and one that isn't there: the
# others are started all the same.
kept box -s sh -c 'read line; echo "$line" >> kept; cat > /dev/null; [ "$line" != "From a" ]'
[ "$status" -eq 1 ] && [ "$(< kept)" = $'From a\nFrom b' ] || fail "a code of 1 gave status $status, $(< kept)"
kept box -s sh -c 'cat >> kept; kill -9 $$'
[ "$status" -eq 1 ] || fail "a killed child gave status $status"
{ printf 'From a\n\n'; head -c 1000000 /dev/zero | tr '\0' x; } > large
kept large -s true
[ "$status" -eq 1 ] || fail "a child that takes less than all gave status $status"
kept box -s ./no-such-program
[ "$status" -eq 74 ] || fail "a program that isn't there gave status $status"
if [ -n "$other" ]; then
    printf 'From a Thu Jan  1 00:00:00 1970\nFrom: a\nTo: me\n\n1\n\n' > three
    printf 'From b Thu Jan  1 00:00:00 1970\nFrom: b\nTo: me\n\n2\n\n' >> three
    kept three -A 'N: 1' -s sh -c 'cat >> kept'
    mv kept mine
    "$other" -A 'N: 1' -s sh -c 'cat >> kept' < three
    cmp -s kept mine || fail "the children of 3.22 get something else"
fi

# Doubles: the status says whether the identifier stood in the cache, and the cache has one a line.
# double STATUS CACHE-BEHIND INPUT WORD..
double() {
    outcome "$program" "${@:3}"
    [ "$status" -eq "$1" ] || fail "formail ${*:4}: status $status, not $1"
    [ ! -s got ] && [ ! -s said ] || fail "formail ${*:4}: wrote something"
    [ "$(cat cache 2> missing)" = "$2" ] || fail "formail ${*:4}: the cache is $(cat cache)"
    [ ! -e cache.lock ] || fail "formail ${*:4}: the lock is left"
}
printf 'Message-ID: <a@x>\n\n' > mail-a
printf 'Message-Id: <b@x>\n\nhi\n' > mail-b
printf 'A: 1\n\n' > mail-c
double 1 '' mail-c -D 8192 cache
[ ! -e cache ] || fail "a mail without an identifier made a cache"
double 1 '<a@x>' mail-a -D 8192 cache
double 0 '<a@x>' mail-a -D 8192 cache
double 1 $'<a@x>\n<b@x>' mail-b -D8192 cache
double 0 $'<a@x>\n<b@x>' mail-b -fbD 8192 cache
printf '<a@x>\n' > cache
double 1 '<b@x>' mail-b -D 6 cache
printf '<a@' > cache
double 1 $'<a@\n<b@x>' mail-b -D 8192 cache
printf '<b@x> and more\nbehind <b@x>\n<b@x>' > cache
double 1 $'<b@x> and more\nbehind <b@x>\n<b@x>\n<b@x>' mail-b -D 8192 cache
printf 'a@b\n' > cache
printf 'From a@b\n\n' > sent
double 0 'a@b' sent -rD 8192 cache
double 1 'a@b' mail-c -rD 8192 cache
rm cache
mkdir cache
outcome "$program" mail-a -D 8192 cache
[ "$status" -eq 73 ] && [ ! -e cache.lock ] || fail "a folder as cache gave status $status"
rmdir cache
outcome "$program" mail-a -D 8192 nowhere/cache
[ "$status" -eq 74 ] || fail "a cache in no folder gave status $status"
printf 'From a\nMessage-ID: <a@x>\n\n1\n\nFrom b\nMessage-ID: <a@x>\n\n2\n\nFrom c\n\n3\n\n' > doubles
outcome "$program" doubles -D 8192 cache -s
[ "$status" -eq 0 ] && [ "$(< got)" = $'From a\nMessage-ID: <a@x>\n\n1\n\nFrom c\n\n3' ] || fail "of doubles came $(< got)"
[ "$(< cache)" = '<a@x>' ] && [ ! -e cache.lock ] || fail "doubles left the cache $(< cache)"
kept doubles -D 8192 cache +1 -s sh -c 'cat >> kept'
[ "$status" -eq 0 ] && [ "$(< kept)" = $'From c\n\n3' ] || fail "of doubles the children got $(< kept)"
if [ -n "$other" ]; then
    rm -f cache other-cache
    for text in mail-a mail-b mail-a mail-c mail-b; do
        outcome "$program" "$text" -D 8192 cache
        mine=$status
        outcome "$other" "$text" -D 8192 other-cache
        [ "$mine" -eq "$status" ] || fail "3.22 has status $status for $text, not $mine"
    done
fi

# A mailbox of 1,000 mails is what its mails are, each for itself.
for number in $(seq 1000); do
    printf 'From a%s Thu Jan  1 00:00:00 1970\nSubject: %s\nTo: me\n\nbody %s\n\n' "$number" "$number" "$number"
done > mailbox
outcome "$program" mailbox -s
cmp -s got mailbox || fail "a mailbox isn't what it was"
outcome "$program" mailbox +998 -zxSubject: -s
[ "$(cat got)" = $'999\n1000' ] || fail "the last two subjects are $(cat got)"
echo "formail: $count command lines passed, $compared compared with formail 3.22"
