#!/usr/bin/env bash
# Measures what the plots show, ours beside 3.22 where it is installed, and writes it to bench/plots/*.dat: millions of
# instructions of the whole program, by valgrind, so that a machine that does other work changes nothing. BIN names the
# directory of the programs, which have to be the proved ones: bin/ if it isn't set. OUT names another directory for the
# data. It isn't part of the check, and takes about ten minutes.
#
# A line of a file has the number on the plot's first axis, and then the costs in the order that its first line names.
set -eu
cd "$(dirname "$0")/.."
programs=$(cd "${BIN:-bin}" && pwd)
mkdir -p "${OUT:-bench/plots}"
out=$(cd "${OUT:-bench/plots}" && pwd)
[ -x "$programs/procmail" ] && [ -x "$programs/formail" ] || { echo "measure: there are no programs in $programs" >&2; exit 1; }
command -v valgrind > /dev/null || { echo "measure: valgrind isn't installed: nothing is measured" >&2; exit 1; }
folder=$(mktemp -d)
trap 'rm -rf "$folder"' EXIT
cd "$folder"
unset MAILDIR DEFAULT ORGMAIL

# Copies, since valgrind runs no program that takes another group, as Debian's procmail does where it is installed.
mkdir ours theirs
cp "$programs/procmail" "$programs/formail" ours
for name in procmail formail; do
    other=$(command -v "$name" || true)
    [ -z "$other" ] || cp "$other" theirs
done

# millions PROGRAM ARGUMENT .. < INPUT: millions of instructions, or a question mark where the program is missing or can't
# be run by valgrind.
millions() {
    local count=
    [ ! -x "$1" ] || count=$(valgrind --tool=callgrind --callgrind-out-file=/dev/null "$@" 2>&1 > /dev/null |
        awk '/Collected/ { printf "%.3f\n", $NF / 1e6 }')
    echo "${count:-?}"
    rm -f mbox else
}
[ "$(millions ours/procmail --trial 0 < /dev/null)" != '?' ] ||
    { echo "measure: valgrind can't run $programs/procmail: nothing is measured" >&2; exit 1; }

# A mail of so many bytes with a header of 2 KiB.
mail() {
    printf 'From a@b Thu Jan  1 00:00:00 1970\nFrom: Ann <ann@example.net>\nTo: joe@example.org\nSubject: hi\n'
    for number in $(seq 38); do printf 'X-Header-%s: some text of a header, about fifty bytes\n' "$number"; done
    printf '\n'
    awk -v bytes="$1" 'BEGIN { for (i = 2048; i < bytes; i += 64)
        print "a line of the body of a mail, which has sixty-four bytes in all" }'
}

printf ':0\nmbox\n' > deliver
printf ':0 B\n* needle in a (hay|straw)stack\nelse\n\n:0\nmbox\n' > search
echo '# bytes of the mail; to a mailbox: ours, 3.22; to it after a search of the body: ours, 3.22' > size.dat
for kib in 4 16 64 256 1024 4096 16384; do
    mail $((kib * 1024)) > mail
    echo "$(wc -c < mail) $(millions ours/procmail -m ./deliver < mail) $(millions theirs/procmail -m ./deliver < mail)" \
        "$(millions ours/procmail -m ./search < mail) $(millions theirs/procmail -m ./search < mail)"
done >> size.dat

echo '# recipes that look for a subject which the mail does not have; ours, 3.22' > recipes.dat
mail 4096 > mail
for count in 1 3 10 30 100 300 1000 3000; do
    { for number in $(seq "$count"); do printf ':0:\n* ^Subject:.*word%d\nbox%d\n\n' "$number" "$number"; done
        printf ':0\nelse\n'; } > rc
    echo "$count $(millions ours/procmail -m ./rc < mail) $(millions theirs/procmail -m ./rc < mail)"
done >> recipes.dat

echo '# mails of 4 KiB in a mailbox that formail -s splits; ours, 3.22' > mails.dat
for count in 1 3 10 30 100 300 1000 3000; do
    for _ in $(seq "$count"); do cat mail; echo; done > mailbox
    echo "$count $(millions ours/formail -s < mailbox) $(millions theirs/formail -s < mailbox)"
done >> mails.dat
mv ./*.dat "$out"
echo "measure: bench/plots/*.dat are written; make plots draws them"
