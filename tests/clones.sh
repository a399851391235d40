#!/usr/bin/env bash
# Blocks with the flag c on real files: a copy of the process goes on behind its block, seventeen of them, of which one isn't
# made, copies within copies with lock files, and copies that go on with the next rcfile because of HOST.
set -eu
. "$(dirname "$0")/common.bash"

printf 'From a@b Thu Jan  1 00:00:00 1970\nA: b\n\nhi\n' > message
printf 'From a@b Thu Jan  1 00:00:00 1970\nA: b\n\nhi\n\n' > piece

# The process delivers, and then its copy.
printf ':0 c\n{ X=1 }\n:0\nmbox$X\n' > rc
"$program" ./rc < message 2> said || fail "a copy ended with status $?"
cmp -s mbox piece || fail "the process didn't deliver"
cmp -s mbox1 piece || fail "the copy didn't deliver"
[ ! -s said ] || fail "a copy told: $(cat said)"
rm mbox mbox1

# Of seventeen copies one isn't made; each that is made comes to the other blocks too, and makes no more.
for number in $(seq 1 17); do printf ':0 c\n{ X=%s }\n' "$number"; done > rc
printf ':0:\nmbox\n' >> rc
"$program" ./rc < message 2> said || fail "seventeen copies ended with status $?"
[ "$(grep -c '^From ' mbox)" -eq 17 ] || fail "seventeen deliveries are $(grep -c '^From ' mbox)"
[ "$(grep -c '^procmail: Too many clones$' said)" -eq 137 ] || fail "the limit was told $(grep -c . said) times"
[ ! -e mbox.lock ] || fail "the lock file is left"
rm mbox

# Copies within copies, each under a lock file of its own and one that its parent holds as well.
cat > rc <<'RC'
:0: outer.lock
{
    LOCKFILE=global.lock
    :0 c
    {
        X=${X}a
        :0: inner.lock
        {
            :0 c
            { X=${X}b }
            :0:
            box-$X
        }
    }
    :0:
    box-$X
}
RC
"$program" ./rc < message 2> said || fail "copies within copies ended with status $?"
for box in box- box-a box-ab; do
    cmp -s "$box" piece || fail "$box isn't the message"
done
[ ! -s said ] || fail "copies within copies told: $(cat said)"
[ -z "$(ls | grep '\.lock$' || true)" ] || fail "locks are left: $(ls | grep '\.lock$')"

# A filter changes the copy's mail alone.
printf ':0 c\n{\n    :0 fw\n    | sed s/hi/ho/\n    X=changed\n}\n:0\nmail-$X\n' > rc
"$program" ./rc < message 2> said || fail "a filter in a copy ended with status $?"
cmp -s mail- piece || fail "the process's mail was changed"
sed 's/hi/ho/' piece | cmp -s - mail-changed || fail "the copy's mail wasn't changed"

# Because of HOST a copy goes on with the next rcfile of the command line, twice, and the process, which delivers, doesn't.
printf ':0 c\n{ HOST=other }\n:0\nfirst\n' > rc
printf ':0 c\nsecond\nHOST=another\n' > rc2
printf ':0\nthird\n' > rc3
"$program" ./rc ./rc2 ./rc3 < message 2> said || fail "other rcfiles in a copy ended with status $?"
for box in first second third; do
    cmp -s "$box" piece || fail "$box isn't the message, once"
done
printf 'procmail: HOST mismatched "%s"\n' other another | cmp -s - said || fail "other rcfiles in a copy told: $(cat said)"

echo "$name: passed"
