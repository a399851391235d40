#!/usr/bin/env bash
# What reading an rcfile costs. No proof says this, and the merge gate doesn't run it. It takes about two minutes.
#
# The first table has what a byte costs in rcfiles of one hostile line again and again, at two sizes: it must not grow
# with the rcfile, and the largest must take less than 2 seconds. The second has the instructions that a byte of an
# ordinary rcfile of 5,000 lines of comments costs: 12 at most.
set -u
cd "$(dirname "$0")/.." || exit 1
small=65536
large=1048576
failed=0

[ -n "${BIN:-}" ] || [ -x bin/run_cases ] || make -s build-cases > /dev/null || exit 1
program=$(cd "${BIN:-bin}" && pwd)/run_cases

if command -v valgrind > /dev/null; then
    counts=yes
else
    counts=no
    echo "valgrind isn't there: times alone are measured"
fi

# The instructions of one run.
instructions() {
    valgrind --tool=callgrind --callgrind-out-file=/dev/null "$program" calls rcfile "$@" 2>&1 > /dev/null |
        awk '/Collected/ { print $NF }'
}

# The instructions of the reading alone: those of the run without those of making the rcfile. TEXT SIZE
of_reading() {
    echo $(($(instructions read "$@") - $(instructions none "$@")))
}

# The nanoseconds that the fastest of three runs takes by the clock. TEXT SIZE
nanoseconds() {
    local best=0 start took
    for _ in 1 2 3; do
        start=$(date +%s%N)
        "$program" calls rcfile read "$@" > /dev/null || echo "failed: $*" >&2
        took=$(($(date +%s%N) - start))
        if [ "$best" -eq 0 ] || [ "$took" -lt "$best" ]; then
            best=$took
        fi
    done
    echo "$best"
}

# per_byte AMOUNT SIZE
per_byte() {
    awk -v amount="$1" -v size="$2" 'BEGIN { printf "%.1f", amount / size }'
}

# growth NAME TEXT: rcfiles of whole texts, of about the two sizes
growth() {
    local few many ratio took less more
    less=$((small / ${#2} * ${#2}))
    more=$((large / ${#2} * ${#2}))
    took=$(nanoseconds "$2" "$more")
    if [ "$counts" = yes ]; then
        few=$(of_reading "$2" "$less")
        many=$(of_reading "$2" "$more")
    else
        few=$(nanoseconds "$2" "$less")
        many=$took
    fi
    ratio=$(awk -v few="$few" -v many="$many" -v less="$less" -v more="$more" \
        'BEGIN { printf "%.2f", (few > 0 ? (many / more) / (few / less) : 999) }')
    printf '%-44s %8s %8s  ratio %5s  %5s s\n' "$1" "$(per_byte "$few" "$less")" "$(per_byte "$many" "$more")" "$ratio" \
        "$(awk -v took="$took" 'BEGIN { printf "%.2f", took / 1000000000 }')"
    if awk -v ratio="$ratio" 'BEGIN { exit !(ratio > 1.5) }'; then
        echo "  the cost of a byte grows with the rcfile"
        failed=1
    fi
    if [ "$took" -ge 2000000000 ]; then
        echo "  it takes two seconds or more"
        failed=1
    fi
}

echo "What a byte costs in rcfiles of $small and of $large bytes (instructions; nanoseconds without valgrind):"
growth 'values whose single quote is not closed' "A=\\''"$'\n'
growth 'values whose double quote is not closed' 'A=\""'$'\n'
growth 'values whose backquote is not closed' 'A=\``'$'\n'
growth 'locks whose quote is not closed' ":0:\\''"$'\n'
growth 'values that mix quotes' "A=\"\`'\"\`x\\'"$'\n'
growth 'joined lines' '\'$'\n'
growth 'a colon and joins' ':\'$'\n'
growth 'names and blanks' 'a   '
growth 'recipes without an action' ':0'$'\n''* '$'\n'
growth 'blocks in blocks' ':0'$'\n''{ '$'\n'

if [ "$counts" = yes ]; then
    line='# An ordinary comment of a line in an rcfile, as one writes it.'$'\n'
    size=$((${#line} * 5000))
    cost=$(per_byte "$(of_reading "$line" "$size")" "$size")
    echo
    echo "Instructions per byte of 5,000 lines of comments: $cost"
    if awk -v cost="$cost" 'BEGIN { exit !(cost > 12) }'; then
        echo "  they are more than 12"
        failed=1
    fi
fi
exit "$failed"
