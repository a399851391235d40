#!/usr/bin/env bash
# Programs on real files: pipes, filters, captures and forwards, with their lock files, their exit codes and their ends.
set -eu
. "$(dirname "$0")/common.bash"

printf 'From a@b Thu Jan  1 00:00:00 1970\nSubject: hi\n\nhello\n' > message
printf 'From a@b Thu Jan  1 00:00:00 1970\nSubject: yo\n\nhello\n' > changed

# Runs an rcfile over the message; the third word is the status that is wanted.
run() {
    printf "$2" > rc
    status=0
    "$program" -m rc < "${4:-message}" > stdout 2> said || status=$?
    [ "$status" -eq "$3" ] || fail "$1: the status is $status and not $3: $(cat said)"
}

run 'a program with its words' ':0\n| tee copy\n' 0
cmp -s message copy || fail 'a program got another mail'

run 'a line for the shell' ':0:\n| cat >> box\n' 0
cmp -s message box || fail 'the shell got another mail'
run 'a lock file' ':0:\n| ls out.lock > seen; cat >> out\n' 0
grep -q out.lock seen || fail 'there was no lock file'
[ ! -e out.lock ] || fail 'a lock file is left'

# It reads no input, and may have ended before it could.
run 'the environment' 'A="b c"\n:0 i\n| /usr/bin/env > env.out\n' 0
grep -q '^A=b c$' env.out || fail 'a variable is missing'

run 'a program that is missing' ':0\n| no-such-program x\n:0\nmbox\n' 0
grep -q "Couldn't start \"no-such-program x\"" said || fail 'nothing was said of a missing program'
[ -s mbox ] || fail 'the next recipe got no mail'

run 'a code under w' ':0 w\n| cat > /dev/null; exit 3\n' 73
grep -q 'Program failure (3) of "cat > /dev/null; exit 3"' said || fail 'nothing was said of a code'
run 'a code under W' ':0 W\n| cat > /dev/null; exit 3\n' 73
grep -q 'Program failure' said && fail 'a code was said under W'
run 'a code without them' ':0\n| cat > /dev/null; exit 3\n' 0
run 'a program that a signal ends' ':0 w\n| cat > /dev/null; kill -9 $$\n' 73
grep -q 'Program failure (137)' said || fail 'the code of a signal is another'

# 50 MB through one pipe, and to one that takes the first bytes alone
{ cat message; head -c 50000000 /dev/zero | tr '\0' 'x' | fold -w 70; } > large
run '50 MB' ':0\n| cat > large.out; :\n' 0 large
cmp -s large large.out || fail '50 MB are others'
run 'a program that closes early' ':0\n| head -c 10 > ten; :\n' 73 large
grep -q 'Input closed by' said || fail 'nothing was said of a closed input'
run 'the same under i' ':0 i\n| head -c 10 > ten; :\n' 0 large

run 'standard output' ':0\n|\n' 0
cmp -s message stdout || fail 'standard output got another mail'

# Filters: what comes out is the mail. The flag r keeps the mailbox's file as the mail is.
run 'a filter of the head' ':0 fh\n| sed s/hi/yo/\n:0 r\nhead\n' 0
cmp -s changed head || fail 'the head is another behind a filter of it'
run 'a filter of the body' ':0 fb\n| tr a-z A-Z\n:0 r\nbody\n' 0
{ sed '/^$/q' message; echo HELLO; } | cmp -s - body || fail 'the body is another behind a filter of it'
run 'a filter of both' ':0 fw:\n| cat >> seen-mail; sed s/hi/yo/ seen-mail\n:0 r\nboth\n' 0
cmp -s changed both || fail 'the mail is another behind a filter of it'
[ ! -e seen-mail.lock ] || fail "a filter's lock file is left"

# The mail stays behind a filter that fails: by the rcfile's last recipe, and what was said.
stays() {
    rm -f kept
    run "$1" "$2"':0 r\nkept\n' 0 "${4:-message}"
    cmp -s "${4:-message}" kept || fail "$1: the mail is another"
    [ -z "$3" ] || grep -q "$3" said || fail "$1: it said $(cat said)"
}
stays 'a filter with a code under w' ':0 fw\n| sed s/hi/yo/; exit 3\n' 'Program failure (3)'
stays 'a filter with a code under W' ':0 fW\n| sed s/hi/yo/; exit 3\n' ''
[ ! -s said ] || fail 'something was said under W'
stays 'a filter that a signal ends' ':0 fw\n| sed s/hi/yo/; kill -9 $$\n' 'Program failure (137)'
stays 'a filter that is missing' ':0 f\n| no-such-program x\n' 'Couldn.t start "no-such-program x"'
stays 'a filter that reads nothing' ':0 f\n| echo out\n' 'Input closed by "echo out"' large
stays 'a filter that closes its input early' ':0 f\n| head -c 10\n' 'Input closed by "head -c 10"' large
stays 'a filter of a byte too many' ':0 f\n| cat > /dev/null; head -c 67108865 /dev/zero\n' 'Output too long from'
run 'a filter that closes its input early, under i' ':0 fi\n| head -c 10\n:0 r\nfirst\n' 0 large
head -c 10 large | cmp -s - first || fail 'the first bytes are others'
run 'a filter of 50 MB' ':0 f\n| cat\n:0 r\nlarge.box\n' 0 large
cmp -s large large.box || fail '50 MB are others behind a filter'
run 'a filter that writes before it reads' ':0 f\n| head -c 5000000 /dev/zero; cat\n:0 r\nlarge.both\n' 0 large
{ head -c 5000000 /dev/zero; cat large; } | cmp -s - large.both || fail 'a filter that wrote first gave another mail'
run 'a filter that writes for ever into a closed end' ':0 fi\n| yes | head -n 1\n:0 r\nforever\n' 0
[ "$(cat forever)" = y ] || fail "a program that wrote for ever gave $(head -c 20 forever)"

# A link and a file that somebody put at the names of the spool file aren't written to, nor removed.
printf 'untouched\n' > victim
printf ':0 fw\n| sed s/hi/yo/\n:0 r\nspooled\n' > rc
cat > put_first << 'END'
echo $$ > number
ln -s "$PWD/victim" /tmp/procmail.$$.0
ln -s "$PWD/victim" /tmp/procmail.$$.1
cp victim /tmp/procmail.$$.2
exec "$1" -m rc < message
END
sh put_first "$program" || fail 'a filter failed beside files at the names of its spool file'
spools=/tmp/procmail.$(cat number)
cmp -s changed spooled || fail 'the mail is another beside files at the names of the spool file'
printf 'untouched\n' | cmp -s - victim || fail 'a link at the name of the spool file was written through'
printf 'untouched\n' | cmp -s - "$spools.2" || fail 'a file at the name of the spool file was written to'
[ "$(echo "$spools".*)" = "$spools.0 $spools.1 $spools.2" ] || fail "at the names of the spool file stand $(echo "$spools".*)"
rm -f "$spools".*

# A descriptor of the caller's isn't handed on.
printf ':0 i\n| ls /proc/self/fd > descriptors\n' > rc
"$program" -m rc < message 9< message || fail 'a program that lists its descriptors failed'
[ "$(paste -s -d ' ' descriptors)" = '0 1 2 3' ] || fail "a program got the descriptors $(paste -s -d ' ' descriptors)"

# Captures: what comes out is the value.
run 'a capture' ':0 w\nN=| wc -l\n:0\ncount$N\n' 0
[ -s count4 ] || fail 'a capture has another value'
run 'a capture with a code' ':0\nN=| cat > /dev/null; echo 7; exit 1\n:0\ncode$N\n' 0
[ -s code7 ] || fail 'a code counts without w'
run 'a capture with a code under w' ':0 w\nN=| cat > /dev/null; echo 7; exit 1\n:0\nfailed$N\n' 0
[ -s failed ] || fail 'a capture that failed has a value'
grep -q 'Program failure (1) of "cat > /dev/null; echo 7; exit 1"' said || fail 'nothing was said of a code of a capture'
run 'a capture that leaves its input' ':0 w\nN=| echo 9\n:0\nleft$N\n' 0 large
[ -s left9 ] || fail 'a capture that left its input has no value'
run 'a value of a byte too many' ':0\nN=| cat > /dev/null; head -c 1048577 /dev/zero\n:0\nlong$PROCMAIL_OVERFLOW\n' 0
[ -s longyes ] || fail 'an output that is too long was not remembered'
grep -q 'Value of 1048577 bytes is too long' said || fail 'nothing was said of an output that is too long'

# Forwards: SENDMAIL gets its flags, the addresses and the mail.
cat > sendmail << 'END'
#!/bin/sh
printf '<%s>' "$@" > words
cat > sent
END
chmod +x sendmail
run 'a forward' 'SENDMAIL=./sendmail\n:0\n! a@x "b c"@x\n' 0
[ "$(cat words)" = '<-oi><a@x><b c@x>' ] || fail "SENDMAIL got the words $(cat words)"
cmp -s message sent || fail 'SENDMAIL got another mail'
run 'a forward with flags' 'SENDMAIL=./sendmail\nSENDMAILFLAGS="-a  -b"\n:0 h\n! a@x\n' 0
[ "$(cat words)" = '<-a><-b><a@x>' ] || fail "SENDMAIL got the words $(cat words)"
sed '/^$/q' message | cmp -s - sent || fail 'SENDMAIL got more than the head'
run 'a forward without SENDMAIL' 'SENDMAIL=./no-such-sendmail\n:0\n! a@x\n:0\nunsent\n' 0
[ -s unsent ] || fail 'mail that could not be forwarded is lost'
run 'a forward whose program fails under w' 'SENDMAIL=/bin/false\n:0 wi\n! a@x\n' 73
grep -q 'Program failure (1)' said || fail 'nothing was said of a code of SENDMAIL'

# For readers that mind it, formail takes the line `From ` off before a maildir gets the mail.
printf "PATH=%s:/usr/bin:/bin\n:0 fhw\n| formail -f -I 'From '\n:0\nmd/\n" "$programs" > rc.lined
"$program" -m rc.lined < message || fail 'a mail without its line From was not filed'
sed 1d message | cmp -s - md/new/* || fail 'the file in the maildir is another mail'

# A hundred programs in one run; the last of them finds no other that is left.
: > hundred
for number in $(seq 33); do
    printf ':0 c\n| echo %s >> hundred; cat > /dev/null\n' "$number"
    printf ':0 fw\n| echo %s >> hundred; cat\n' "$number"
    printf ':0 w\nN=| echo %s >> hundred; cat > /dev/null\n' "$number"
done > rc.copies
printf ':0\n| echo last >> hundred; cat > last; ps -o pid= --ppid $PPID > children\n' >> rc.copies
"$program" -m rc.copies < message || fail 'a hundred programs failed'
[ "$(wc -l < hundred)" -eq 100 ] || fail "$(wc -l < hundred) programs of 100"
cmp -s message last || fail 'the mail is another behind 33 filters'
[ "$(wc -l < children)" -eq 1 ] || fail "$(wc -l < children) children beside the last program"

# Nothing is left of programs that have ended, killed ones and those that wrote too much among them.
printf ':0 fw\n| cat > /dev/null; kill -9 $$\n:0 f\n| head -c 67108865 /dev/zero\n:0 fw\n| no-such-program x\n:0\n| ps -o stat= --ppid $PPID > states; cat > /dev/null\n' > rc
echo 'exec "$1" -m rc < message' > numbered
sh -c 'echo $$ > number; . ./numbered' sh "$program" 2> said || fail 'the recipe behind failed filters failed'
grep -q Z states && fail 'a program that has ended is left as a zombie'
[ "$(echo "/tmp/procmail.$(cat number)".*)" = "/tmp/procmail.$(cat number).*" ] || fail 'a spool file is left'
echo "programs: pipes, filters, captures and forwards, their locks, codes and ends, 50 MB and a hundred programs"
