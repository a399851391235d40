#!/usr/bin/env bash
# What deliveries cost, ours beside procmail 3.22 where it is installed: instructions, by valgrind; system calls, all of them and
# those after the program's start, by strace; and the most memory, by time(1). It isn't part of the check.
set -eu
cd "$(dirname "$0")/.."
[ -n "${BIN:-}" ] || [ -x bin/procmail ] || make -s build > /dev/null
ours=$(cd "${BIN:-bin}" && pwd)/procmail
theirs=$(command -v procmail || true)
folder=$(mktemp -d)
trap 'rm -rf "$folder"' EXIT
cd "$folder"
unset MAILDIR DEFAULT ORGMAIL

# A message of so many lines of 64 bytes.
message() {
    printf 'From a@b Thu Jan  1 00:00:00 1970\nSubject: hi\n\n'
    awk -v lines="$1" 'BEGIN { for (i = 1; i <= lines; i++) printf "line %8d of the message, with sixty-four bytes in all of it\n", i }'
}
message 63 > m4k
message 16384 > m1m
message 163840 > m10m
message 819200 > m50m

printf ':0:\nmbox\n' > one
printf ':0\nmbox\n' > plain
printf ':0\nfolder/\n' > maildir
for _ in $(seq 1000); do printf ':0 c\n/dev/null\n\n'; done > null
printf ':0\n/dev/null\n' >> null
for number in $(seq 100); do printf ':0 c\nbox%s\n\n' "$number"; done > hundred
printf ':0\n/dev/null\n' >> hundred
{ for number in $(seq 300); do printf 'A%s=value-$LOGNAME-%s\n' "$number" "$number"; done; printf ':0\n/dev/null\n'; } > assignments
{ printf ':0\n'; for number in $(seq 20); do printf 'box%s ' "$number"; done; echo; } > twenty
for number in $(seq 20); do printf ':0 c\nbox%s\n\n' "$number"; done > twenty_recipes
printf ':0\n/dev/null\n' >> twenty_recipes

# The cost of one run: `cost LABEL PROGRAM RCFILE MESSAGE WHAT..`, where WHAT is calls, instructions or memory.
cost() {
    local label=$1 program=$2 rc=$3 mail=$4
    shift 4
    for what in "$@"; do
        rm -rf mbox box* folder trace
        case $what in
            calls)
                command -v strace > /dev/null || continue
                strace -f -o trace "$program" -m "./$rc" < "$mail" > /dev/null 2>&1 || true
                # The start ends with the loader's last call: what comes from the first read of the message or of the rcfile on counts.
                printf '%-24s %-14s %9s system calls, %s after the start\n' "$label" "${program##*/}" \
                    "$(grep -vc -e '+++' trace)" \
                    "$(awk -v rc="$rc" '(index($0, "\"./" rc "\"") && !/execve/ || /read\(0/) && !begun { begun = 1 } begun && !/\+\+\+/ { count++ } END { print count + 0 }' trace)"
                ;;
            instructions)
                command -v valgrind > /dev/null || continue
                valgrind --tool=callgrind --callgrind-out-file="$folder/profile" "$program" -m "./$rc" < "$mail" > /dev/null 2>&1 || true
                printf '%-24s %-14s %9s instructions\n' "$label" "${program##*/}" \
                    "$(sed -n 's/^summary: //p; s/^totals: //p' profile | head -n 1)"
                ;;
            memory)
                [ -x /usr/bin/time ] || continue
                /usr/bin/time -f '%M' -o peak "$program" -m "./$rc" < "$mail" > /dev/null 2>&1 || true
                printf '%-24s %-14s %9s KiB at most, for a message of %s KiB\n' "$label" "${program##*/}" "$(tail -n 1 peak)" \
                    "$(($(wc -c < "$mail") / 1024))"
                ;;
        esac
    done
}
# valgrind runs no program that takes another group, as Debian's procmail does where it is installed.
cp "$ours" ours
ours=$folder/ours
if [ -n "$theirs" ]; then
    cp "$theirs" procmail-3.22
    theirs=$folder/procmail-3.22
fi
both() {
    local label=$1
    shift
    cost "$label" "$ours" "$@"
    [ -z "$theirs" ] || cost "$label" "$theirs" "$@"
}
both "4 KiB under a lock" one m4k calls instructions
both "4 KiB without a lock" plain m4k calls instructions
both "4 KiB to a maildir" maildir m4k calls instructions
both "1 MiB" one m1m calls instructions
both "50 MiB" one m50m calls instructions memory
both "1,000 to /dev/null" null m4k calls instructions
both "100 copies" hundred m4k calls instructions
both "300 assignments" assignments m4k calls instructions
both "10 MiB to 20 in a recipe" twenty m10m memory
both "10 MiB by 20 recipes" twenty_recipes m10m memory
