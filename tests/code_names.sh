#!/usr/bin/env bash
# Each name of the code that a document gives in backquotes exists: in the code, the definitions, the scripts, the cases or
# the manual pages, or as a file's name. So does each path of this repository, and docs/TESTED.md names each script.
#
# A name is a word that stands alone between backquotes, or the parts of one with `::`; a word in capitals is a placeholder
# or a variable, which tests/pages.sh compares. MOVING.md and SERVERS.md are full of the settings of other programs: of
# their words only those are looked up that are written as definitions are, in two parts that begin with capitals.
set -u
name=$(basename "$0" .sh)
cd "$(dirname "$0")/.." || exit 1
folder=$(mktemp -d) || exit 1
trap 'rm -rf "$folder"' EXIT

find README.md docs bench examples -name '*.md' 2> /dev/null | sort > "$folder/pages"

# The words of all that isn't a document, and of the names of all files.
find . \( -name .git -o -name out -o -path ./bin \) -prune -o -type f -print | sed 's|^\./||' > "$folder/files"
grep -v -e '\.md$' -e '\.edit$' -e '\.svg$' "$folder/files" | tr '\n' '\0' |
    xargs -0 grep -Ioh '[A-Za-z_][A-Za-z0-9_]*' > "$folder/words"
tr '/.' '\n\n' < "$folder/files" >> "$folder/words"
sort -u -o "$folder/words" "$folder/words"

# The spans between backquotes, outside examples that are set apart: FILE:LINE, a tab, the span.
tr '\n' '\0' < "$folder/pages" | xargs -0 awk '
    FNR == 1 { fenced = 0 }
    /^ *```/ { fenced = !fenced; next }
    !fenced {
        line = $0
        while (match(line, /`[^`]+`/)) {
            print FILENAME ":" FNR "\t" substr(line, RSTART + 1, RLENGTH - 2)
            line = substr(line, RSTART + RLENGTH)
        }
    }' > "$folder/spans"

awk -F '\t' '
    NR == FNR { known[$1]; next }
    $2 ~ /^[A-Za-z][A-Za-z0-9_]*(::[A-Za-z][A-Za-z0-9_]*)*$/ {
        count = split($2, parts, "::")
        for (at = 1; at <= count; at++) {
            word = parts[at]
            if (length(word) < 3 || word ~ /^[A-Z0-9_]+$/ || word ~ /_$/ || word in known) continue
            if ($1 ~ /MOVING|SERVERS/ && word !~ /^[A-Z][a-z]+[A-Z]/) continue
            print $1 ": there is no `" word "`"
        }
    }' "$folder/words" "$folder/spans" > "$folder/wrong"

# A path may have stars, and capitals for a name: `crates/NAME/src/*.rt`.
while IFS=$'\t' read -r place span; do
    pattern=$(sed 's/[A-Z][A-Z]*\(\.[a-z]*\)*\(\/\|$\)/*\1\2/g' <<< "${span%/}")
    compgen -G "$pattern" > /dev/null || compgen -G "$span" > /dev/null || echo "$place: there is no file \`$span\`" >> "$folder/wrong"
done < <(grep -v /out "$folder/spans" | grep -P '\t(crates|tests|docs|bench|examples|man|bugs|\.ci)/[A-Za-z0-9_.*/-]+$')

# Each script has its place on the page of what is tested.
for script in tests/*.sh; do
    grep -qF "\`$script\`" docs/TESTED.md || echo "docs/TESTED.md: it says nothing of \`$script\`" >> "$folder/wrong"
done

if [ -s "$folder/wrong" ]; then
    cat "$folder/wrong"
    echo "$name: $(wc -l < "$folder/wrong") names of documents are nowhere else" >&2
    exit 1
fi
echo "$name: $(wc -l < "$folder/spans") names and phrases in $(wc -l < "$folder/pages") documents: passed"
