#!/usr/bin/env bash
# The built formail beside formail 3.22. No proof says this, and the merge gate doesn't run it.
#
# First comes the processor's time for -s over a mailbox of 50 MB: at most 0.2 of what 3.22 takes is the aim. Then the
# instructions that a tenth of it takes, and those of -x Subject: on a mail of 4 KiB: at most those of 3.22 is the aim.
set -eu
cd "$(dirname "$0")/.."
[ -n "${BIN:-}" ] || [ -x bin/formail ] || make -s build-formail > /dev/null
ours=$(cd "${BIN:-bin}" && pwd)/formail
other=$(command -v formail) || { echo "formail 3.22 isn't installed"; exit 1; }
folder=$(mktemp -d)
trap 'rm -rf "$folder"' EXIT
cd "$folder"

# A body of N lines.
body() {
    yes "The quick brown fox jumps over the lazy dog, and then it goes home again." | head -n "$1"
}

# The header of a mail.
head_of() {
    printf 'From joe%d@mx Thu Jan  1 00:00:00 1970\nReturn-Path: <joe%d@mx>\nFrom: Joe <joe%d@mx>\n' "$1" "$1" "$1"
    printf 'To: me@mx\nSubject: number %d\nMessage-ID: <%d@mx>\n\n' "$1" "$1"
}

# 10,000 mails of about 5 KB, and one of 4 KiB.
body 64 > text
for number in $(seq 10000); do
    head_of "$number"
    echo "$(< text)"
    echo
done > mailbox
{ head_of 1; body 54; } | head -c 4096 > mail

# The processor's milliseconds of a run, for the user and for the system. What it wrote is in `got`.
milliseconds() {
    { TIMEFORMAT='%U %S'; time "$1" -s < mailbox > got; } 2>&1 | awk '{ printf "%d", ($1 + $2) * 1000 }'
}

# Nine runs of each by turns, since a machine's speed drifts; the least and the middle one count.
for _ in 1 2 3 4 5 6 7 8 9; do
    mine=$(milliseconds "$ours")
    cp got mine
    theirs=$(milliseconds "$other")
    cmp got mine >&2 || echo "the outputs differ" >&2
    echo "$mine $theirs"
done > runs
size=$(wc -c < mailbox)
sort -n -k1,1 runs | awk '{ print $1 }' > mine
sort -n -k2,2 runs | awk '{ print $2 }' > theirs
for line in 1 5; do
    awk -v a="$(sed -n "${line}p" mine)" -v b="$(sed -n "${line}p" theirs)" -v line="$line" -v size="$size" 'BEGIN {
        printf "formail -s over %.1f MB, %s of nine runs: %d ms, 3.22 %d ms: %.2f of it\n", size / 1e6, (line == 1 ? "the least" : "the middle"), a, b, a / b
    }'
done

if command -v valgrind > /dev/null; then
    instructions() {
        valgrind --tool=callgrind --callgrind-out-file=/dev/null "$@" < mail 2>&1 > /dev/null |
            awk '/Collected/ { print $NF }'
    }
    head -c 5000000 mailbox > part
    all_of() {
        valgrind --tool=callgrind --callgrind-out-file=/dev/null "$1" -s < part 2>&1 > /dev/null | awk '/Collected/ { print $NF }'
    }
    awk -v a="$(all_of "$ours")" -v b="$(all_of "$other")" 'BEGIN {
        printf "formail -s over 5 MB: %d instructions of its own, 3.22 %d: %.2f of them\n", a, b, a / b
    }'
    awk -v a="$(instructions "$ours" -x Subject:)" -v b="$(instructions "$other" -x Subject:)" 'BEGIN {
        printf "formail -x Subject: on 4 KiB: %d instructions, 3.22 %d: %.2f of them\n", a, b, a / b
    }'
fi
