#!/usr/bin/env bash
# What programs cost that get the mail, ours beside procmail 3.22 where it is installed: the processor's time of the run and of
# the programs that it starts, and the time by the clock. It isn't part of the check.
set -eu
cd "$(dirname "$0")/.."
[ -n "${BIN:-}" ] || [ -x bin/procmail ] || make -s build > /dev/null
ours=$(cd "${BIN:-bin}" && pwd)/procmail
theirs=$(command -v procmail || true)
folder=$(mktemp -d)
trap 'rm -rf "$folder"' EXIT
cd "$folder"
unset MAILDIR DEFAULT ORGMAIL

# A message of so many lines of 64 bytes.
message() {
    printf 'From a@b Thu Jan  1 00:00:00 1970\nSubject: hi\n\n'
    awk -v lines="$1" 'BEGIN { for (i = 1; i <= lines; i++) printf "line %8d of the message, with sixty-four bytes in all of it\n", i }'
}
message 63 > m4k
message 819200 > m50m

printf 'SHELL=/bin/sh\n:0 fw\n| cat\n\n:0\n/dev/null\n' > filter
printf 'SHELL=/bin/sh\n:0 w\n| cat > /dev/null\n' > pipe
printf 'SHELL=/bin/sh\nWORDS=| wc -w\n\n:0\n/dev/null\n' > capture

# One batch of so many runs: the program's name, the processor's milliseconds of a run for the user and the system, and those
# by the clock.
batch() {
    local program=$1 rc=$2 mail=$3 count=$4
    TIMEFORMAT='%U %S %R'
    { time for _ in $(seq "$count"); do "$program" -m "./$rc" < "$mail" > /dev/null 2>&1; done; } 2> spent
    awk -v program="${program##*/}" -v count="$count" '{ print program, ($1 + $2) * 1000 / count, $3 * 1000 / count }' spent
}

# Of the batches of each program: the least and the middle one.
summary() {
    sort -k1,1 -k2,2n | awk -v label="$1" '
        function row() { if (n) printf "%-20s %-14s %8.2f ms of a processor at least, %8.2f in the middle; %8.2f by the clock\n", label, name, cpu[1], cpu[int((n + 1) / 2)], wall }
        $1 != name { row(); name = $1; n = 0; wall = $3 }
        { cpu[++n] = $2; if ($3 < wall) wall = $3 }
        END { row() }'
}
cp "$ours" ours
ours=$folder/ours
if [ -n "$theirs" ]; then
    cp "$theirs" procmail-3.22
    theirs=$folder/procmail-3.22
fi
# Batches of both by turns, since a machine's speed drifts: `both LABEL RCFILE MESSAGE BATCHES RUNS`.
both() {
    for _ in $(seq "$4"); do
        batch "$ours" "$2" "$3" "$5"
        [ -z "$theirs" ] || batch "$theirs" "$2" "$3" "$5"
    done | summary "$1"
}
both "a filter, 4 KiB" filter m4k 7 40
both "a pipe, 4 KiB" pipe m4k 7 40
both "a capture, 4 KiB" capture m4k 7 40
both "a filter, 50 MiB" filter m50m 9 1
both "a pipe, 50 MiB" pipe m50m 9 1
