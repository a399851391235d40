#!/usr/bin/env bash
# How long searches for regular expressions take. No proof says this, and the merge gate doesn't run it. Counting takes
# some minutes.
#
# The first table has what a byte of the area costs at two sizes: it must not grow with the area. The second has the
# instructions that a byte and expression cost on ordinary lines, for expressions that don't match there. The third has
# what a byte costs with lists of words and with deep expressions, and what making the automata costs.
set -u
cd "$(dirname "$0")/.." || exit 1
small=65536
large=1048576
failed=0

[ -n "${BIN:-}" ] || [ -x bin/run_cases ] || make -s build-cases > /dev/null || exit 1
program=$(cd "${BIN:-bin}" && pwd)/run_cases

if command -v valgrind > /dev/null; then
    counts=yes
else
    counts=no
    echo "valgrind isn't there: times alone are measured"
fi

# The instructions of one run.
instructions() {
    valgrind --tool=callgrind --callgrind-out-file=/dev/null "$program" calls search "$@" 2>&1 > /dev/null |
        awk '/Collected/ { print $NF }'
}

# The instructions of the search alone: those of the run without those of making the area and the automata.
of_search() {
    echo $(($(instructions "$@") - $(instructions none "${@:2}")))
}

# The nanoseconds that the fastest of three runs takes by the clock.
nanoseconds() {
    local best=0 start took
    for _ in 1 2 3; do
        start=$(date +%s%N)
        "$program" calls search "$@" > /dev/null || echo "failed: $*" >&2
        took=$(($(date +%s%N) - start))
        if [ "$best" -eq 0 ] || [ "$took" -lt "$best" ]; then
            best=$took
        fi
    done
    echo "$best"
}

# per_byte AMOUNT SIZE
per_byte() {
    awk -v amount="$1" -v size="$2" 'BEGIN { printf "%.1f", amount / size }'
}

# ratio AMOUNT-OF-SMALL AMOUNT-OF-LARGE
ratio() {
    awk -v few="$1" -v many="$2" -v small="$small" -v large="$large" \
        'BEGIN { printf "%.2f", (few > 0 ? (many / large) / (few / small) : 999) }'
}

# Fails where the ratio of the two sizes is over 1.5.
judge() {
    if awk -v ratio="$1" 'BEGIN { exit !(ratio > 1.5) }'; then
        echo "  the cost of a byte grows with the area"
        failed=1
    fi
}

# growth NAME EXPRESSION KIND
growth() {
    local few many grows slow_few slow_many
    few=$(nanoseconds find "$2" "$3" "$small")
    many=$(nanoseconds find "$2" "$3" "$large")
    printf '%-36s %9s ns %9s ns  ratio %5s' "$1" "$(per_byte "$few" "$small")" "$(per_byte "$many" "$large")" \
        "$(ratio "$few" "$many")"
    if [ "$counts" = yes ]; then
        slow_few=$(of_search find "$2" "$3" "$small")
        slow_many=$(of_search find "$2" "$3" "$large")
        grows=$(ratio "$slow_few" "$slow_many")
        printf '   %8s %8s instructions  ratio %5s\n' "$(per_byte "$slow_few" "$small")" \
            "$(per_byte "$slow_many" "$large")" "$grows"
    else
        grows=$(ratio "$few" "$many")
        printf '\n'
    fi
    judge "$grows"
    if [ "$1" = 'a*b' ] && [ "$many" -ge 1000000000 ]; then
        echo "  it takes a second or more"
        failed=1
    fi
}

twenty() {
    local text=
    for _ in 1 2 3 4 5 6 7 8 9 10 11 12 13 14 15 16 17 18 19 20; do
        text+=$1
    done
    echo "$text"
}

echo "What a byte costs in areas of $small and of $large bytes:"
growth 'a*b' 'a*b' a
growth '(a|aa)+c' '(a|aa)+c' a
growth '20 times a?, 20 times a, b' "$(twenty 'a?')$(twenty a)b" a
growth '^Subject:( *(re:)?)+\/.*' '^Subject:( *(re:)?)+\/.*' re

ordinary=(
    '^Subject:.*lottery'
    'click here'
    '[0-9][0-9]%'
    'unsubscribe'
    '^From:.*@casino\.'
    'viagra|cialis'
    'https?://[a-z0-9.]*/login'
    '\<free\>.*\<offer\>'
    '100% guaranteed'
    '^Content-Type: text/html'
    'dear (friend|customer)'
    '[$][0-9]+,[0-9]+'
    'make money fast'
    '^X-Spam-Flag: YES'
    'limited time'
    '(buy|order) now'
    '\.(exe|scr|pif)\>'
    'no obligation'
    '^Received:.*\[10\.'
    'winner[!]+'
)
if [ "$counts" = yes ]; then
    echo
    echo "Instructions per byte and expression on $large bytes of ordinary lines:"
    sum=0
    for text in "${ordinary[@]}"; do
        if [ "$("$program" calls search find "$text" text "$large")" != none ]; then
            echo "matches: $text"
            failed=1
        fi
        cost=$(of_search find "$text" text "$large")
        sum=$((sum + cost))
        printf '%-36s %8s\n' "$text" "$(per_byte "$cost" "$large")"
    done
    printf '%-36s %8s\n' 'in the mean' "$(per_byte $((sum / ${#ordinary[@]})) "$large")"
fi

# 100 words that the ordinary lines don't have.
words=(
    lottery casino viagra cialis refinance mortgage guarantee unsubscribe investor jackpot pharmacy discount exclusive
    billion inheritance transfer urgent password verify suspended bitcoin wallet crypto replica rolex luxury
    weightloss miracle enlargement singles dating webcam horoscope psychic clearance bargain voucher coupon freebie
    giveaway sweepstake winner prize congratulations selected beneficiary barrister dormant remittance consignment
    diploma degree university accredited loans credit debtfree consolidate insurance premium quotes annuity timeshare
    vacation cruise airline hotelroom getaway passport visa greencard immigration invest portfolio penny stocks shares
    trading forex broker profit earnings income workfromhome homebased franchise opportunity multilevel pyramid scheme
    wholesale dropship supplier factory genuine original designer handbag perfume cosmetics
)

# A list of the first so many words, with bars between them.
first_words() {
    local IFS='|'
    echo "${words[*]:0:$1}"
}

# repeated TEXT COUNT
repeated() {
    local text=
    for ((done = 0; done < $2; done++)); do
        text+=$1
    done
    echo "$text"
}

# states NAME EXPRESSION KIND SIZE: what a byte costs, and what the automata cost
states() {
    local made cost
    made=$(($(instructions none "$2" "$3" "$4") - $(instructions none x "$3" "$4")))
    cost=$(of_search find "$2" "$3" "$4")
    printf '%-36s %10s a byte %10s to make it\n' "$1" "$(per_byte "$cost" "$4")" "$made"
}

if [ "$counts" = yes ]; then
    echo
    echo "Instructions of lists of words on $large bytes of ordinary lines, and of deep expressions on $small bytes:"
    for count in 10 50 100; do
        states "$count words" "$(first_words "$count")" text "$large"
        states "$count words between boundaries" "\\<($(first_words "$count"))\\>" text "$large"
    done
    states '900 times *' "a$(repeated '*' 900)b" a "$small"
    states '100 times a?' "$(repeated 'a?' 100)c" a "$small"
    states '50 nested parentheses' "$(repeated '(' 50)a$(repeated ')*' 50)b" a "$small"
fi
exit "$failed"
