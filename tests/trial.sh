#!/usr/bin/env bash
# A trial by the built program on real files: what it says and what it leaves, beside the same messages delivered one by
# one; which words ask for one; the first run that fails ends it; standard output that takes nothing; 2,000 messages.
set -eu
. "$(dirname "$0")/common.bash"

cp "$top/crates/procmail_cli/data/rc" rc

# The messages with the numbers from 0 on, each in a file of its own.
messages() {
    mkdir -p mail
    awk -v count="$1" 'BEGIN {
        for (k = 0; k < count; k++) {
            printf "From t Thu Jan  1 00:00:00 1970\nTo: l%d@x\nSubject: %d\n\n", k % 5, k > ("mail/" k)
            for (line = 0; line < k % 4; line++) printf "line\n" > ("mail/" k)
            close("mail/" k)
        }
    }'
}

# Starts the program, which must end with this status.
ends_with() {
    local want=$1 status=0
    shift
    "$program" "$@" > out 2> said < /dev/null || status=$?
    [ "$status" -eq "$want" ] || fail "$* ended with status $status in place of $want"
}

ends_with 0 --trial 10
printf 'messages 10\nentries 34\nappends 16\nlocks 4\nbytes 954\n' > want
cmp -s out want || fail "ten messages said: $(cat out)"
[ ! -s said ] || fail "ten messages said on standard error: $(cat said)"
[ "$(ls)" = "copy
list
long
out
rc
rest
said
want" ] || fail "ten messages left: $(ls)"

# The same by single deliveries, for a hundred messages.
rm copy list long rest
ends_with 0 --trial 100
mkdir single
cp rc single/rc
(
    cd single
    messages 100
    for ((k = 0; k < 100; k++)); do
        "$program" -m rc < "mail/$k" || fail "the single delivery $k ended with status $?"
    done
)
for box in copy list long rest; do
    cmp -s "$box" "single/$box" || fail "$box isn't what single deliveries make of it"
done

# Other words are read as ever, and these aren't read.
rm -r single copy list long rest
for words in "--trial 0" "--trial 2001" "--trial 00010" "--trial -1" "--trial x" "--trial" "--trial 10 rc" \
    "-t --trial 10"; do
    # shellcheck disable=SC2086
    ends_with 64 $words
    [ ! -s out ] || fail "$words said: $(cat out)"
    [ "$(cat said)" = "procmail: Bad words" ] || fail "$words said on standard error: $(cat said)"
done
[ "$(ls)" = "out
rc
said
want" ] || fail "words that aren't read left: $(ls)"
ends_with 0 --trial 0010
cmp -s out want || fail "leading zeros said: $(cat out)"
rm copy list long rest

# The first run that fails ends the trial: the messages before it stand, and those behind it don't.
printf ':0\n* ^Subject: [0-2]$\nmbox\n\n:0\n* ^Subject: 3$\n{\nEXITCODE=7\n}\n' > rc
ends_with 7 --trial 10
[ ! -s out ] || fail "a trial that failed said: $(cat out)"
[ "$(grep -c '^From ' mbox)" -eq 3 ] || fail "a trial that failed in its fourth run left: $(cat mbox)"
rm rc mbox
ends_with 66 --trial 10
[ ! -s out ] || fail "a trial without an rcfile said: $(cat out)"

# Standard output that takes nothing.
printf ':0\nmbox\n' > rc
if [ -w /dev/full ]; then
    status=0
    "$program" --trial 3 > /dev/full 2> said < /dev/null || status=$?
    [ "$status" -eq 74 ] || fail "a full standard output ended with status $status"
    [ ! -s said ] || fail "a full standard output said: $(cat said)"
    [ "$(grep -c '^From ' mbox)" -eq 3 ] || fail "a full standard output left: $(cat mbox)"
    rm mbox
fi

# 2,000 messages want no more memory than 200 do, but for a mebibyte at most.
ends_with 0 --trial 2000
printf 'messages 2000\nentries 4000\nappends 2000\nlocks 0\nbytes 127390\n' > want
cmp -s out want || fail "2,000 messages said: $(cat out)"
[ "$(grep -c '^From ' mbox)" -eq 2000 ] || fail "2,000 messages left $(grep -c '^From ' mbox)"
if [ -x /usr/bin/time ]; then
    rm mbox
    /usr/bin/time -f '%M' -o few "$program" --trial 200 > out
    rm mbox
    /usr/bin/time -f '%M' -o many "$program" --trial 2000 > out
    [ "$(cat many)" -le "$(($(cat few) + 1024))" ] ||
        fail "2,000 messages took $(cat many) KiB of memory, and 200 took $(cat few) KiB"
fi
echo "trial: passed"
