#!/usr/bin/env bash
# The program that runs the files of cases reports wrong ones: tests/wrong_cases/cases has a wrong case of each kind beside
# right ones, and tests/wrong_cases/reported what it says of these. Lines that aren't cases are refused.
set -u
name=$(basename "$0" .sh)
programs=${BIN:+$(cd "$BIN" && pwd)}
cd "$(dirname "$0")/.." || exit 1
[ -n "$programs" ] || [ "${ARE_BUILT:-}" = yes ] || make -s build-cases || exit 1
programs=${programs:-$PWD/bin}
if [ ! -x "$programs/run_cases" ]; then
    echo "$name: there is no program run_cases beside the others (make build-cases builds it): skipped"
    exit 0
fi
report=$(mktemp) || exit 1
trap 'rm -f "$report"' EXIT

fail() {
    echo "$name: $1" >&2
    exit 1
}

# run STATUS INPUT: its report goes to $report.
run() {
    "$programs/run_cases" < "$2" > "$report"
    local status=$?
    [ "$status" -eq "$1" ] || fail "the status is $status and not $1: $(tail -n 3 "$report")"
}

run 1 tests/wrong_cases/cases
diff tests/wrong_cases/reported "$report" || fail 'other cases are reported than the wrong ones'

run 65 <(printf 'run a case\nno-such-line\n')
[ "$(cat "$report")" = '2: no run has such a line' ] || fail "a wrong line is reported so: $(cat "$report")"

run 0 /dev/null
[ "$(cat "$report")" = '0 passed, 0 failed' ] || fail "of no case it says: $(cat "$report")"
echo "$name: passed"
