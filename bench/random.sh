#!/usr/bin/env bash
# Random expressions, ours beside procmail 3.22: five seeds of 2,000 expressions each, every other one weighted, on a body of
# 16 KiB. It fails where a condition takes more than ten times as long as 3.22's, or more than a second on 1 MiB. It isn't
# part of the check, and takes some minutes.
#
#     bench/random.sh                      with bin/procmail
#     bench/random.sh PROGRAM              with another build of procmail
#     bench/random.sh PROGRAM COUNT SEED.. so many expressions of each of these seeds
#
# One run evaluates many expressions, each in a recipe of its own, with a line of the log after it. What passes between
# two lines is the time of an expression; the least of three runs counts, so that other work on the machine does little.
# Where ours is above five times 3.22's, the condition is evaluated ten times in a run of its own, and the medians of five
# such runs decide, by processor time. 3.22 takes almost no time for some weighted expressions that match the empty text,
# as `.?`. So its time counts as at least 0.3 milliseconds, which is 18 nanoseconds a byte.
set -eu
cd "$(dirname "$0")/.."
ours=${1:-bin/procmail}
count=${2:-2000}
[ $# -gt 2 ] && shift 2 || set -- 1 2 3 4 5
theirs=$(command -v procmail || true)
if [ ! -x "$ours" ] || [ -z "$theirs" ]; then
    echo "random.sh: $ours or procmail 3.22 isn't there: skipped"
    exit 0
fi
ours=$(realpath "$ours")
folder=$(mktemp -d)
trap 'rm -rf "$folder"' EXIT
cd "$folder"
unset MAILDIR DEFAULT ORGMAIL
turns=5
repeats=10
least=300
batch=50
limit=2

# mail SIZE: a mail whose body is ordinary lines, up to so many bytes
mail() {
    printf 'From a@b Thu Jan  1 00:00:00 1970\nSubject: hi\n\n'
    awk -v size="$1" 'BEGIN {
        text = "thank you for the notes about our meeting on Tuesday.\nI have read them twice, and I think that we agree\n"
        text = text "on most of the points: who pays for the travel (about 350 dollars), and when the aab of abba is ready.\n\n"
        while (length(text) < size && length(text) < 65536) text = text text
        for (left = size; left > 0; left -= length(text)) printf "%s", substr(text, 1, left)
        print ""
    }'
}

# expressions SEED COUNT: random expressions, one a line
expressions() {
    awk -v state="$1" -v count="$2" '
        function below(n) { state = (state * 16807) % 2147483647; return state % n }
        function atom(deep,    kind) {
            kind = below(deep > 0 ? 16 : 12)
            if (kind < 5) return substr("abet ", below(5) + 1, 1)
            if (kind == 5) return "."
            if (kind == 6) return "[a-z]"
            if (kind == 7) return "[^a-z]"
            if (kind == 8) return words[below(many) + 1]
            if (kind == 9) return "\\<"
            if (kind == 10) return "\\>"
            if (kind == 11) return "$"
            return "(" either(deep - 1) ")"
        }
        function either(deep,    text, more) {
            text = sequence(deep)
            for (more = below(3); more > 0; more--) text = text "|" sequence(deep)
            return text
        }
        function sequence(deep,    text, more, times) {
            text = ""
            for (more = below(4) + 1; more > 0; more--) {
                times = below(8)
                text = text atom(deep) (times < 3 ? substr("*+?", times + 1, 1) : "")
            }
            return text
        }
        BEGIN {
            many = split("the meeting travel points dollars lottery ready of abba", words, " ")
            state = state * 7919 + 1
            for (done = 0; done < 10; done++) below(2)
            while (count-- > 0) print "()" either(2)
        }'
}

# recipe NUMBER EXPRESSION: a recipe with that condition, weighted where the number is odd, and an empty block
recipe() {
    local weight=
    if (($1 % 2)); then weight='1^1 '; fi
    printf ':0 B\n* %s%s\n{ }\n\n' "$weight" "$2"
}

# rcfile NUMBER EXPRESSION TIMES: the same condition so many times
rcfile() {
    local done
    echo DEFAULT=/dev/null
    for ((done = 0; done < $3; done++)); do recipe "$1" "$2"; done
}

# took PROGRAM MAIL: sets `time` to the processor time of a run by `rc` in milliseconds
took() {
    local TIMEFORMAT='%U %S' all
    all=$( { time timeout 60 "$1" -m ./rc < "$2" > /dev/null 2>&1; } 2>&1 ) || true
    all=${all##*$'\n'}
    local user=${all% *} system=${all#* }
    time=$((10#${user/./} + 10#${system/./}))
}

# median PROGRAM MAIL: the same in `time`, of some turns
median() {
    local turn all=()
    for ((turn = 0; turn < turns; turn++)); do
        took "$1" "$2"
        all+=("$time")
    done
    time=$(printf '%s\n' "${all[@]}" | sort -n | sed -n "$(((turns + 1) / 2))p")
}

# lap PROGRAM: for each line `lap NUMBER` that a run by `rc` logs its number, and the microseconds since the line before
lap() {
    timeout "$limit" "$1" -m ./rc < small 2>&1 > /dev/null | {
        before=${EPOCHREALTIME/./}
        while IFS= read -r line; do
            now=${EPOCHREALTIME/./}
            case $line in
                'lap 0') before=$now ;;
                'lap '*) echo "${line#lap } $((now - before))" && before=${EPOCHREALTIME/./} ;;
            esac
        done
    } || true
}

# laps PROGRAM: one run over the expressions of `part`, lines of a number and an expression. 3.22 never ends with some:
# these have the time limit, and the run goes on after them.
laps() {
    local number expression last
    cp part left
    while [ -s left ]; do
        {
            printf 'DEFAULT=/dev/null\nLOG="lap 0\n"\n'
            while read -r number expression; do
                recipe "$number" "$expression"
                printf 'LOG="lap %d\n"\n' "$number"
            done < left
        } > rc
        lap "$1" > got
        cat got
        last=$(tail -n 1 got)
        awk -v last="${last%% *}" 'last == "" || $1 > last' left > rest
        read -r number expression < rest || break
        echo "$number $((limit * 1000000))"
        sed 1d rest > left
    done
}

# least_of PROGRAM FILE: writes the least of three runs for each number. What had no end in the first isn't run again.
least_of() {
    local turn
    cp all part
    laps "$1" > runs
    for turn in 2 3; do
        awk -v limit="$((limit * 1000000))" 'NR == FNR { if ($2 == limit) out[$1]; next } !($1 in out)' runs all > part
        laps "$1" >> runs
    done
    awk '!($1 in least) || $2 < least[$1] { least[$1] = $2 }
        END { for (number in least) print number, least[number] }' runs | sort -n >> "$2"
}

mail 16384 > small
mail 1048576 > large
rcfile 0 x 0 > rc
median "$ours" small
our_start=$time
median "$theirs" small
their_start=$time

failed=0
# again NUMBER EXPRESSION: measures one expression by processor time
again() {
    rcfile "$1" "$2" "$repeats" > rc
    median "$ours" small
    local mine=$((time - our_start))
    median "$theirs" small
    local other=$(((time - their_start) * 1000 / repeats))
    [ "$other" -ge "$least" ] || other=$least
    ratio=$((mine * 1000 / repeats * 10 / other))
}

for seed in "$@"; do
    expressions "$seed" "$count" > list
    : > mine
    : > others
    for ((first = 1; first <= count; first += batch)); do
        awk -v first="$first" -v last="$((first + batch))" 'NR >= first && NR < last { print NR, $0 }' list > all
        least_of "$ours" mine
        least_of "$theirs" others
    done
    [ "$(wc -l < mine)" -eq "$count" ] && [ "$(wc -l < others)" -eq "$count" ] || {
        echo "seed $seed: $(wc -l < mine) and $(wc -l < others) of $count were evaluated"
        failed=1
    }
    join <(sort mine) <(sort others) | awk -v least="$least" \
        '{ other = $3 < least ? least : $3; printf "%d %d %d %d\n", $1, 10 * $2 / other, $2, $3 }' > times
    echo "Seed $seed, the worst of $count (tenths of 3.22, microseconds, 3.22's, weighted if the number is odd, expression):"
    sort -k2,2nr times | sed -n 1,5p | while read -r number ratio mine other; do
        echo "  $ratio $mine $other $number $(sed -n "${number}p" list)"
    done
    awk '$2 > 50' times > worst
    while read -r number ratio mine other; do
        expression=$(sed -n "${number}p" list)
        again "$number" "$expression"
        echo "  again: $ratio tenths: $expression"
        [ "$ratio" -le 100 ] || { echo "  above ten times: $expression" && failed=1; }
    done < worst
    sort -k3,3nr times | sed -n 1,5p > slow
    while read -r number ratio mine other; do
        expression=$(sed -n "${number}p" list)
        rcfile "$number" "$expression" 1 > rc
        took "$ours" large
        echo "  on 1 MiB $time milliseconds: $expression"
        [ "$time" -le 1000 ] || { echo "  above a second: $expression" && failed=1; }
    done < slow
done
exit "$failed"
