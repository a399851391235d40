#!/usr/bin/env bash
# The built procmail-explain beside the built procmail: the processor's time of -s over 10,000 mails of 4 KiB by an rcfile of
# 50 recipes, and that of a delivery of each of these mails to /dev/null by the same rcfile. At most 3 times that is the aim,
# and a peak of 64 MiB beyond the mailbox. No proof says this, and the merge gate doesn't run it. BIN names the directory of
# the programs, bin/ if it isn't set.
set -eu
cd "$(dirname "$0")/.."
programs=$(cd "${BIN:-bin}" && pwd)
[ -x "$programs/procmail-explain" ] || { echo "explain: there are no programs in $programs" >&2; exit 1; }
folder=$(mktemp -d)
trap 'rm -rf "$folder"' EXIT
cd "$folder"

{
    for number in $(seq 49); do
        printf ':0:\n* ^Subject:.*word%d\\>\n* B ?? deadline%d\nbox%d\n' "$number" "$number" "$number"
    done
    printf ':0\n/dev/null\n'
} > rc
python3 - << 'END'
line = b"The quick brown fox jumps over the lazy dog, and then it goes home again.\n"
with open("mailbox", "wb") as out:
    for number in range(10000):
        mail = b"From joe@mx  Thu Jan  1 00:00:00 1970\nFrom: Joe <joe@mx>\nTo: me@mx\nSubject: number %d word%d\n\n" % (number, number % 60)
        mail += line * 60
        out.write(mail[:4094] + b"\n\n")
END

# The processor's seconds and the peak of memory in KiB of a command and its children.
cost() {
    python3 -c '
import resource, subprocess, sys
subprocess.run(sys.argv[1:], stdin=open("mailbox", "rb"), stdout=subprocess.DEVNULL, check=True)
used = resource.getrusage(resource.RUSAGE_CHILDREN)
print(round(used.ru_utime + used.ru_stime, 2), used.ru_maxrss)' "$@"
}

# One delivery after another, by a program that does nothing else.
cat > each.py << 'END'
import os, sys
mails = open("mailbox", "rb").read()
places, at = [0], mails.find(b"\n\nFrom ")
while at >= 0:
    places.append(at + 2)
    at = mails.find(b"\n\nFrom ", at + 2)
places.append(len(mails))
for start, end in zip(places, places[1:]):
    ours, theirs = os.pipe()
    child = os.posix_spawn(sys.argv[1], [sys.argv[1], "-m", "rc"], os.environ,
        file_actions=[(os.POSIX_SPAWN_DUP2, ours, 0), (os.POSIX_SPAWN_CLOSE, ours), (os.POSIX_SPAWN_CLOSE, theirs)])
    os.close(ours)
    os.write(theirs, mails[start:end])
    os.close(theirs)
    if os.waitstatus_to_exitcode(os.waitpid(child, 0)[1]) != 0:
        sys.exit("a delivery failed")
END
size=$(wc -c < mailbox)
deliveries=$(cost python3 each.py "$programs/procmail" | cut -d ' ' -f 1)
read -r lines lines_peak <<< "$(cost "$programs/procmail-explain" -s -q -m rc)"
read -r steps steps_peak <<< "$(cost "$programs/procmail-explain" -s -m rc)"
read -r both both_peak <<< "$(cost "$programs/procmail-explain" -s --compare rc -m rc)"
awk -v size="$size" -v d="$deliveries" -v a="$lines" -v am="$lines_peak" -v b="$steps" -v bm="$steps_peak" -v c="$both" -v cm="$both_peak" 'BEGIN {
    printf "10,000 mails, %.1f MiB: %.2f s by procmail\n", size / 1048576, d
    printf "-s -q: %.2f s, %.2f of it, %.1f MiB\n", a, a / d, am / 1024
    printf "-s: %.2f s, %.2f of it, %.1f MiB\n", b, b / d, bm / 1024
    printf "-s --compare: %.2f s, %.2f of it, %.1f MiB\n", c, c / d, cm / 1024
}'
