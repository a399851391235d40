#!/usr/bin/env bash
# procmail-check --from-3.22 on the rcfiles in the documentation of Debian packages, whole files and those in other texts:
# it finds what tests/moving/doc_rcfiles says, and at most one finding in ten is false, by the reasons there.
#
# The documentation is in /usr/share/doc, or in the directory DOC_RCFILES. Texts that aren't there, or that are others, are
# left out.
set -eu
. "$(dirname "$0")/common.bash"
documentation=${DOC_RCFILES:-/usr/share/doc}
list=$top/tests/moving/doc_rcfiles

# text FILE: a text of the documentation, which may be compressed there.
text() {
    if [ -r "$documentation/$1" ]; then cat "$documentation/$1"; else zcat "$documentation/$1.gz" 2> /dev/null; fi
}

# Each rcfile, with the other lines of its text empty, so that a finding has the line of the text.
: > found
: > read
: > lacking
while read -r sum file lines; do
    text "$file" > whole || true
    first=${lines%-*}
    last=${lines#*-}
    awk -v first="${first:-1}" -v last="${last:-1000000}" '{ print first <= NR && NR <= last ? $0 : "" }' whole > rc
    if [ "$(cksum < rc | cut -d ' ' -f 1)" != "$sum" ]; then
        echo "$file" >> lacking
        continue
    fi
    "$programs/procmail-check" --no-disk --from-3.22 ./rc > out || [ $? -le 2 ] || fail "$file: status $?"
    sed -n "s|^\./rc:\([0-9]*\):[0-9]*: .* \[\([a-z-]*\)\]\$|$file:\1 \2|p" out >> found
    echo "$file" >> read
done < <(sed -n 's/^read //p' "$list")
if [ ! -s read ]; then
    echo "$name: no documentation with rcfiles here: skipped"
    exit 0
fi
[ ! -s lacking ] || echo "$name: missing or another version: $(sort -u lacking | tr '\n' ' '): skipped"

# listed KIND: the findings of this kind in the texts that were read.
listed() {
    sed -n "s/^$1 \([^ ]* [^ ]*\) .*/\1/p" "$list" |
        awk 'NR == FNR { read[$1]; next } { file = $1; sub(/:[0-9]*$/, "", file) } file in read' read -
}
sort -u found > all
{ listed true; listed false; } | sort > known
cmp -s all known || fail "other findings than tests/moving/doc_rcfiles has: $(diff known all)"
total=$(wc -l < all)
false_count=$(listed false | wc -l)
[ $((false_count * 10)) -le "$total" ] || [ -s lacking ] || fail "$false_count of $total findings are false"
echo "$name: passed, $(wc -l < read) rcfiles, $total findings, $false_count of them false"
