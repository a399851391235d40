#!/usr/bin/env bash
# procmail-check --from-3.22 on the 73 modules of Debian's procmail-lib, old rcfiles that their authors wrote for 3.22: at
# most one finding in ten is false. tests/moving/false_findings has those that are, each with its reason. And each of the
# 42 modules that do something else here has a finding on a line that makes it differ: tests/moving/differing_modules. The
# modules are in /usr/share/procmail-lib, or in the directory PROCMAIL_LIB.
set -eu
. "$(dirname "$0")/common.bash"
modules=${PROCMAIL_LIB:-/usr/share/procmail-lib}
if [ ! -d "$modules" ]; then
    echo "$name: no procmail-lib here: skipped"
    exit 0
fi

# The findings by the codes of forms alone, as `FILE:LINE CODE`.
sed -n 's/^[a-z_]*_code [A-Za-z.]* = codes "\(.*\)"$/\1/p' "$top/crates/check_moving/specs/Messages.antt" | sort -u > forms
[ "$(wc -l < forms)" -ge 60 ] || fail "the definitions have only $(wc -l < forms) codes"
for module in "$modules"/*.rc; do
    "$programs/procmail-check" --no-disk --from-3.22 "$module" || [ $? -le 2 ]
done > out
sed -n 's/^.*\/\([^/:]*\):\([0-9]*\):[0-9]*: .* \[\([a-z-]*\)\]$/\1:\2 \3/p' out > all
awk 'NR == FNR { form[$1]; next } $2 in form' forms all | sort -u > found
grep -v '^#' "$top/tests/moving/false_findings" | cut -d ' ' -f 1,2 | sort -u > false
comm -23 false found > stale
[ ! -s stale ] || fail "these false findings aren't found any more: $(cat stale)"
grep -v '^#' "$top/tests/moving/differing_modules" > differing
[ "$(wc -l < differing)" -eq 42 ] || fail "the list has $(wc -l < differing) modules that differ"
cut -d ' ' -f 2,3 differing | sort -u | comm -23 - found > lost
[ ! -s lost ] || fail "these lines have no finding any more: $(cat lost)"
total=$(wc -l < found)
false_count=$(wc -l < false)
[ "$total" -ge 200 ] || fail "only $total findings"
[ $((false_count * 10)) -le "$total" ] || fail "$false_count of $total findings are false"
echo "$name: passed, $total findings, $false_count of them false; each of the 42 modules that differ has one on a line" \
    "that makes it differ"
