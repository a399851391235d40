#!/usr/bin/env bash
# Runs files of cases by the built program: `tests/cases.sh [NAME ..]`, by default all. Each case that fails is printed
# after its file and line, and for each file and at the end how many tries passed and failed.
set -u
programs=${BIN:+$(cd "$BIN" && pwd)}
cd "$(dirname "$0")/.." || exit 1
[ -n "$programs" ] || [ "${ARE_BUILT:-}" = yes ] || make -s build-cases || exit 1
programs=${programs:-$PWD/bin}
if [ ! -x "$programs/run_cases" ]; then
    echo "cases: there is no program run_cases beside the others (make build-cases builds it): skipped"
    exit 0
fi

files=(tests/cases/*.cases)
if [ $# -gt 0 ]; then
    files=()
    for name in "$@"; do files+=("tests/cases/$(basename "$name" .cases).cases"); done
fi
passed=0
failed=0
ended=0
# So many files at a time.
AT_ONCE=3
room=$(mktemp -d) || exit 1
trap 'rm -rf "$room"' EXIT
places=$room/places
: > "$places"

# run_file FILE REPORT: the status is the program's.
run_file() {
    exec "$programs/run_cases" < "$1" > "$2"
}

started=0
processes=()
start_next() {
    [ "$started" -lt "${#files[@]}" ] || return 0
    run_file "${files[started]}" "$room/$started" &
    processes+=($!)
    started=$((started + 1))
}

for ((at = 0; at < AT_ONCE; at++)); do start_next; done
for ((at = 0; at < ${#files[@]}; at++)); do
    file=${files[at]}
    report=$room/$at
    wait "${processes[at]}"
    status=$?
    start_next
    # The program says the number of a line, and can't know the file.
    sed -i -e "s|^[0-9][0-9]*: |$file:&|" -e "\$ s|^[0-9]|$file: &|" "$report"
    cat "$report"
    grep "^$file:[0-9]" "$report" >> "$places"
    if [ "$status" -gt 1 ]; then
        echo "$file: ended with status $status"
        ended=1
        continue
    fi
    read -r _ some _ others _ <<< "$(tail -n 1 "$report")"
    passed=$((passed + some))
    failed=$((failed + others))
    [ "$status" -eq 0 ] || ended=1
done
if [ -s "$places" ]; then
    echo 'The cases that failed, each by its first failed try:'
    awk -F ': ' '!seen[$1]++ { print "  " $0 }' "$places"
fi
echo "cases: $passed passed, $failed failed"
exit "$ended"
