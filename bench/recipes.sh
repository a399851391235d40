#!/usr/bin/env bash
# What a recipe costs in an rcfile of 1,000 and in one of 10,000, in instructions of the whole program: it must not grow
# with their number. No proof says this, and the merge gate doesn't run it. It takes about a minute.
set -eu
cd "$(dirname "$0")/.."
[ -n "${BIN:-}" ] || [ -x bin/procmail ] || make -s build > /dev/null
program=$(cd "${BIN:-bin}" && pwd)/procmail
command -v valgrind > /dev/null || { echo "valgrind isn't there"; exit 0; }
folder=$(mktemp -d)
trap 'rm -rf "$folder"' EXIT
cd "$folder"
printf 'A: b\n\nhi\n' > mail
failed=0

instructions() {
    valgrind --tool=callgrind --callgrind-out-file=/dev/null "$program" -m ./rc < mail 2>&1 > /dev/null |
        awk '/Collected/ { print $NF }'
}

# row NAME RECIPE: so many of the recipe, and a last one that delivers
row() {
    local few many
    { for _ in $(seq 1000); do printf "$2"; done; printf ':0\nelse\n'; } > rc
    few=$(instructions)
    { for _ in $(seq 10000); do printf "$2"; done; printf ':0\nelse\n'; } > rc
    many=$(instructions)
    rm -f else
    printf '%-36s %12s %14s\n' "$1" "$((few / 1000))" "$((many / 10000))"
    [ "$((many / 10000))" -le "$((few / 1000 * 3 / 2))" ] || { echo "  the cost of a recipe grows with their number"; failed=1; }
}

printf '%-36s %12s %14s\n' "instructions of a recipe" "of 1,000" "of 10,000"
row "a condition that doesn't hold" ':0\n* ^B:\nbox\n\n'
row "A after one that didn't match" ':0 A\nbox\n\n'
row "E after one that didn't match" ':0 E\n* ^B:\nbox\n\n'
row "a block with such a recipe" ':0\n{\n:0\n* ^B:\nbox\n}\n'
exit "$failed"
