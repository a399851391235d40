#!/usr/bin/env bash
# How the costs of a run grow. Each dimension below is doubled six times, and what is counted is the instructions of the whole
# program, by valgrind, so that other work of the machine changes nothing. Printed are its exponent, the instructions at the
# least and at the greatest size, and 3.22's exponent where that is installed: 1 says in proportion, 2 with the square.
#
# It fails if an exponent is above 1.1. Known exceptions are listed with their reason and a bound of their own. BIN names the
# directory of the programs, bin/ if it isn't set. Words of the command line name single dimensions. It isn't part of the
# check, and takes about ten minutes.
set -u
cd "$(dirname "$0")/.." || exit 1
programs=$(cd "${BIN:-bin}" && pwd) || exit 1
[ -x "$programs/procmail" ] && [ -x "$programs/formail" ] || { echo "grow: there are no programs in $programs" >&2; exit 1; }
command -v valgrind > /dev/null || { echo "grow: valgrind isn't installed: nothing is measured" >&2; exit 1; }
folder=$(mktemp -d)
trap 'rm -rf "$folder"' EXIT
cd "$folder" || exit 1
unset MAILDIR DEFAULT ORGMAIL

# Copies, since valgrind runs no program that takes another group, as Debian's procmail does where it is installed.
mkdir ours theirs
cp "$programs/procmail" "$programs/formail" ours
for name in procmail formail; do
    other=$(command -v "$name" || true)
    [ -z "$other" ] || cp "$other" theirs
done

# What is known to grow faster, with the most that it may: `bound DIMENSION`.
bound() {
    case $1 in
        # A variable of the environment is asked for by its number, and the library counts to it.
        environment) echo 1.7 ;;
        # A lock is looked for among all that are held.
        held_locks) echo 1.2 ;;
        *) echo 1.1 ;;
    esac
}

# Lines with the numbers from 1 on: `rows COUNT FORMAT`, in which each %d is the number.
rows() {
    awk -v count="$1" -v format="$2" 'BEGIN { for (i = 1; i <= count; i++) { row = format; gsub(/%d/, i, row); print row } }'
}

# A mail with so many fields and lines of a body: `mail FIELDS LINES [LINE]`.
mail() {
    printf 'From a@b Thu Jan  1 00:00:00 1970\nSubject: hi\nMessage-ID: <1@b>\n'
    rows "$1" 'X-Field-%d: some text of a field'
    echo
    rows "$2" "${3:-a line of the body of a mail, which has about sixty bytes}"
}

# What a run reads, by the dimension and its size: files rc, mail and others.
last=$'\n:0\n/dev/null\n'
prepare() {
    mail 3 20 > mail
    words=()
    assigned=()
    case $1 in
        message) mail 3 "$2" > mail; printf ':0\nmbox\n' > rc ;;
        from_lines) mail 3 "$2" 'From here to there' > mail; printf ':0\nmbox\n' > rc ;;
        body_search) mail 3 "$2" > mail; printf ':0B\n* (hay|straw)stack\nmbox\n%s' "$last" > rc ;;
        fields) mail "$2" 3 > mail; printf ':0\n* ^X-None:\nmbox\n%s' "$last" > rc ;;
        recipes) { rows "$2" ':0\n* ^Subject:.*word%d\nmbox\n'; echo "$last"; } | sed 's/\\n/\n/g' > rc ;;
        conditions) { echo ':0'; rows "$2" '* ! ^X-None%d:'; printf 'mbox\n'; } > rc ;;
        weights) { echo ':0'; rows "$2" '* 1^1 ^Subject: (hi|%d)'; printf '/dev/null\n'; } > rc ;;
        variables) { rows "$2" 'NAME%d=value-%d'; echo "$last"; } > rc ;;
        chains) { echo 'NAME=x'; rows "$2" 'OTHER=$NAME'; echo "$last"; } > rc ;;
        value) { printf 'NAME="'; rows "$2" 'some words of a value, and $HOME'; printf '"\n%s' "$last"; } > rc ;;
        unset) { rows "$2" 'NAME%d=value'; rows "$2" 'NAME%d'; echo "$last"; } > rc ;;
        copies) { rows "$2" ':0 c\n/dev/null\n'; echo "$last"; } | sed 's/\\n/\n/g' > rc ;;
        destinations) { echo ':0'; rows "$2" 'box%d' | tr '\n' ' '; echo; } > rc ;;
        recipe_chain) { echo ':0 c'; echo mbox; rows "$2" ':0 Ac\n/dev/null\n'; echo "$last"; } | sed 's/\\n/\n/g' > rc ;;
        copies_with_variables)
            { rows "$2" 'NAME%d=value'; rows "$2" ':0 c\n/dev/null\n'; echo "$last"; } | sed 's/\\n/\n/g' > rc ;;
        destinations_with_variables)
            { rows "$2" 'NAME%d=value'; echo ':0'; rows "$2" 'box%d' | tr '\n' ' '; echo; } > rc ;;
        plain_value) { printf 'NAME="'; rows "$2" 'some plain words of a value'; printf '"\n%s' "$last"; } > rc ;;
        log_lines) { echo 'LOGFILE=log'; rows "$2" 'LOG="%d"'; echo "$last"; } > rc ;;
        comments) { rows "$2" '# a comment about what comes next'; echo "$last"; } > rc ;;
        long_line) { printf 'NAME='; rows "$2" 'word\' ; printf 'end\n%s' "$last"; } > rc ;;
        blocks) { rows "$2" ':0\n{\nNAME=%d\n}\n'; echo "$last"; } | sed 's/\\n/\n/g' > rc ;;
        nested_blocks) { rows "$2" ':0\n{'; rows "$2" '}'; echo "$last"; } | sed 's/\\n/\n/g' > rc ;;
        includes) echo 'NAME=value' > other; { rows "$2" 'INCLUDERC=./other'; echo "$last"; } > rc ;;
        environment) mapfile -t assigned < <(rows "$2" 'NAME%d=value'); echo "$last" > rc ;;
        arguments) mapfile -t words < <(rows "$2" 'word%d'); { echo 'NAME="$@"'; echo "$last"; } > rc ;;
        shift) mapfile -t words < <(rows "$2" 'word%d'); { rows "$2" 'SHIFT=1'; echo "$last"; } > rc ;;
        held_locks) { rows "$2" ':0:lock%d\n{'; rows "$2" '}'; echo "$last"; } | sed 's/\\n/\n/g' > rc ;;
        mh_folder) mkdir -p mh; (cd mh && seq "$2" | xargs touch); printf ':0\nmh/.\n' > rc ;;
        maildir) mkdir -p md/new md/tmp md/cur; (cd md/new && seq "$2" | xargs touch); printf ':0\nmd/\n' > rc ;;
        formail_split) for _ in $(seq "$2"); do cat mail; echo; done > mailbox ;;
        formail_add) mapfile -t words < <(rows "$2" 'X-New-%d: text'); words=("${words[@]/#/-A}") ;;
        formail_fields) mail "$2" 3 > mail; words=(-A "X-New: text") ;;
        formail_cache) for number in $(seq "$2"); do sed "s/<1@b>/<$number@b>/" mail; echo; done > mailbox ;;
    esac
}

# The instructions of one run: `count PROGRAMS DIMENSION`.
count() {
    local run=()
    case $2 in
        formail_split) run=("$1/formail" -s) ;;
        formail_cache) run=("$1/formail" -D 1048576 cache -s) ;;
        formail_*) run=("$1/formail" "${words[@]}") ;;
        *) run=("$1/procmail" -m ./rc "${words[@]}") ;;
    esac
    rm -rf mbox box* log cache lock*
    [ -s mailbox ] || cp mail mailbox
    env -i PATH="$PATH" HOME="$folder" "${assigned[@]}" \
        valgrind --tool=callgrind --callgrind-out-file=/dev/null "${run[@]}" < mailbox 2>&1 > /dev/null |
        awk '/Collected/ { print $NF }'
    rm -f mailbox
}

# The exponent of seven counts at sizes that double. What a run costs by itself is in each of them, and in no difference. It
# is 0 if the last doublings add less than a hundredth, and a question mark if a run failed.
exponent() {
    awk '{ at[NR] = $1 } END {
        if (NR < 7) printf "?"
        else if (at[7] - at[3] < at[3] / 100) printf "0.00"
        else if (at[7] > at[5] && at[5] > at[3]) printf "%.2f", log((at[7] - at[5]) / (at[5] - at[3])) / log(2) / 2
        else printf "?"
    }'
}

# The counts of a program at each size: `series PROGRAMS DIMENSION SIZE`.
series() {
    local size=$3
    for _ in 1 2 3 4 5 6 7; do
        prepare "$2" "$size"
        count "$1" "$2"
        rm -rf mh md
        size=$((size * 2))
    done
}

failed=0
printf '%-24s %8s %8s %12s %12s %10s %8s\n' dimension from to instructions 'at the end' exponent 3.22
while read -r dimension size; do
    [ $# -eq 0 ] || [[ " $* " = *" $dimension "* ]] || continue
    series ours "$dimension" "$size" > mine
    other=-
    if [ -x theirs/procmail ] && [ "${ALONE:-}" != yes ]; then
        series theirs "$dimension" "$size" > others
        other=$(exponent < others)
    fi
    own=$(exponent < mine)
    printf '%-24s %8s %8s %12s %12s %10s %8s\n' "$dimension" "$size" "$((size * 64))" "$(head -n 1 mine)" "$(tail -n 1 mine)" \
        "$own" "$other"
    if ! awk -v own="$own" -v bound="$(bound "$dimension")" 'BEGIN { exit !(own != "?" && own <= bound) }'; then
        echo "grow: $dimension grows with the exponent $own, and $(bound "$dimension") is allowed" >&2
        failed=1
    fi
done << 'END'
message 500
from_lines 500
body_search 500
fields 500
recipes 20
conditions 20
weights 20
variables 20
chains 20
value 20
plain_value 20
unset 20
copies 20
destinations 5
recipe_chain 20
copies_with_variables 20
destinations_with_variables 5
log_lines 20
comments 50
long_line 50
blocks 20
nested_blocks 10
includes 3
environment 20
arguments 20
shift 20
held_locks 5
mh_folder 50
maildir 50
formail_split 20
formail_add 10
formail_fields 50
formail_cache 40
END
exit "$failed"
