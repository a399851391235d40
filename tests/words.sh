#!/usr/bin/env bash
# Words that can't be read end the built program with status 64 and a line, also where one isn't UTF-8; without a place for
# that line it ends the same way.
set -eu
. "$(dirname "$0")/common.bash"

printf ':0\nmbox\n' > rc
printf 'A: b\n\nhi\n' > message
printf 'procmail: Bad words\n' > want

refused() {
    status=0
    "$program" "$@" < message 2> said || status=$?
    [ "$status" -eq 64 ] || fail "the words $* ended with status $status"
    cmp -s said want || fail "the words $* gave another line: $(cat said)"
    [ ! -e mbox ] || fail "the words $* delivered"
}
refused -x
refused -m
refused -f
refused -f '' ./rc
refused -f 'a b' ./rc
refused 1X=2
refused ''
refused "$(printf './rc\377')"
refused -m "$(printf 'rc\377')"

status=0
"$program" "$(printf '\377')" < message 2>&- || status=$?
[ "$status" -eq 64 ] || fail "without standard error bad words ended with status $status"
echo "$name: passed"
