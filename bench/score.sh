#!/usr/bin/env bash
# What it costs to count the matches of a weighted condition, ours beside procmail 3.22 where it is installed: the processor
# time of a delivery to /dev/null by turns, the median of five, and how the instructions grow from 16 KiB to 1 MiB, by
# valgrind (exponent 1: in proportion to the mail). It isn't part of the check.
#
#     bench/score.sh          with bin/procmail
#     bench/score.sh PROGRAM  with another build of procmail
#     bench/score.sh calls    with bin/run_cases, whose calls count and deliver nothing (make build-cases builds it)
set -eu
cd "$(dirname "$0")/.."
turns=5
ours=${1:-bin/procmail}
case $ours in
    calls) ours=bin/run_cases counts=yes ;;
    *) counts=no ;;
esac
if [ ! -x "$ours" ]; then
    echo "score.sh: $ours isn't there: skipped (make builds bin/procmail, make build-cases bin/run_cases)"
    exit 0
fi
ours=$(realpath "$ours")
theirs=$(command -v procmail || true)
[ -n "$theirs" ] || echo "procmail 3.22 isn't installed: its column is left out"
folder=$(mktemp -d)
trap 'rm -rf "$folder"' EXIT
cd "$folder"
unset MAILDIR DEFAULT ORGMAIL

# The same texts as in crates/run_cases/src/calls/area.rt.
links='<p>See <a href="https://shop.example/item?id=4711">this offer</a> or '
links+='<a class="more" href="https://shop.example/list">all of them</a>, <b>today</b> only.</p> '
prose='thank you for the notes about our meeting on Tuesday. I have read them twice and I '
prose+='think that we agree on most of the points, but for two of the questions that Peter raised: who '
prose+='pays for the travel, and when the first draft of the report has to be ready for the others. '
lines=${prose//, /,$'\n'}

# mail TEXT SIZE: a mail whose body is that text again and again, up to so many bytes.
mail() {
    printf 'From a@b Thu Jan  1 00:00:00 1970\nSubject: hi\n\n'
    TEXT=$1 awk -v size="$2" 'BEGIN {
        text = ENVIRON["TEXT"]
        while (length(text) < size && length(text) < 65536) text = text text
        for (left = size; left > 0; left -= length(text)) printf "%s", substr(text, 1, left)
        print ""
    }'
}

# expression kind bytes
rows=(
    '()<a .*onclick|javascript: links 20500'
    '()<a .*onclick|javascript: links 41000'
    '()<a .*onclick|javascript: links 82000'
    '(the .*lottery)|meeting prose 262144'
    '.+$x|b pairs 16000'
    'a(.|$)*zzz|b pairs 6000'
    '^.*$ lines 1048576'
    '[a-z]+ lines 1048576'
    '. lines 204800'
    '()<a .*onclick|javascript: links 1048576'
    '(the .*lottery)|meeting prose 1048576'
    '.+$x|b pairs 1048576'
    'a(.|$)*zzz|b pairs 1048576'
)

made() {
    [ -e "$1.$2" ] && return
    case $1 in
        links) mail "$links" "$2" ;;
        prose) mail "$prose" "$2" ;;
        pairs) mail ab "$2" ;;
        lines) mail "$lines" "$2" ;;
    esac > "$1.$2"
}

# set_run WHOSE EXPRESSION KIND SIZE: sets `run`
set_run() {
    if [ "$1" = ours ] && [ "$counts" = yes ]; then
        run=("$ours" calls search count "$2" "${3/lines/text}" "$4")
    else
        printf 'DEFAULT=/dev/null\n:0 B\n* 1^1 %s\n/dev/null\n' "$2" > rc
        run=("${!1}" -m ./rc)
    fi
}

# The processor time of one run in milliseconds.
milliseconds() {
    local TIMEFORMAT='%U %S'
    { time timeout 60 "${run[@]}" < "$1" > /dev/null 2>&1; } 2>&1 | awk '{ printf "%.0f\n", 1000 * ($1 + $2) }'
}

median() {
    sort -n | awk '{ all[NR] = $1 } END { print all[int((NR + 1) / 2)] }'
}

# valgrind runs no program that takes another group, as Debian's procmail does.
if [ -n "$theirs" ]; then
    cp "$theirs" procmail-3.22
fi

instructions() {
    valgrind --tool=callgrind --callgrind-out-file=/dev/null "${run[@]}" < "$1" 2>&1 > /dev/null |
        awk '/Collected/ { print $NF }'
}

# exponent WHOSE EXPRESSION KIND
exponent() {
    local small large none size
    for size in 0 16384 1048576; do
        made "$3" "$size"
        set_run "$1" "$2" "$3" "$size"
        case $size in
            0) none=$(instructions "$3.$size") ;;
            16384) small=$(instructions "$3.$size") ;;
            *) large=$(instructions "$3.$size") ;;
        esac
    done
    awk -v none="$none" -v small="$small" -v large="$large" \
        'BEGIN { printf "%.2f", log((large - none) / (small - none)) / log(64) }'
}

printf '%-30s %-6s %8s %9s %9s %7s\n' expression area bytes 'ours, ms' '3.22, ms' ratio
for row in "${rows[@]}"; do
    size=${row##* } rest=${row% *}
    kind=${rest##* } expression=${rest% *}
    made "$kind" "$size"
    : > ours.times
    : > theirs.times
    for ((turn = 0; turn < turns; turn++)); do
        set_run ours "$expression" "$kind" "$size"
        milliseconds "$kind.$size" >> ours.times
        [ -n "$theirs" ] || continue
        set_run theirs "$expression" "$kind" "$size"
        milliseconds "$kind.$size" >> theirs.times
    done
    mine=$(median < ours.times)
    if [ -n "$theirs" ]; then
        their=$(median < theirs.times)
        ratio=$(awk -v a="$mine" -v b="$their" 'BEGIN { if (b > 0) printf "%.1f", a / b; else printf "-" }')
    else
        their=- ratio=-
    fi
    printf '%-30s %-6s %8s %9s %9s %7s\n' "$expression" "$kind" "$size" "$mine" "$their" "$ratio"
done

if command -v valgrind > /dev/null; then
    echo
    echo 'Exponents from 16 KiB to 1 MiB, of the instructions:'
    [ -z "$theirs" ] || theirs=$folder/procmail-3.22
    for pair in '()<a .*onclick|javascript: links' '(the .*lottery)|meeting prose' '.+$x|b pairs' 'a(.|$)*zzz|b pairs' \
        '^.*$ lines' '[a-z]+ lines'; do
        kind=${pair##* } expression=${pair% *}
        grows=$(exponent ours "$expression" "$kind")
        other=-
        [ -z "$theirs" ] || other=$(exponent theirs "$expression" "$kind")
        printf '%-30s %-6s ours %5s   3.22 %5s\n' "$expression" "$kind" "$grows" "$other"
    done
else
    echo "valgrind isn't there: no exponents"
fi
