#!/usr/bin/env bash
# The manual pages: mandoc finds nothing in them, where it is installed. The log lines, variables, flags, options and
# statuses that they name are those of the definitions, none more and none less. What stands in a list of a page is an
# item `.It` of it.
set -eu
name=$(basename "$0" .sh)
cd "$(dirname "$0")/.."
folder=$(mktemp -d)
trap 'rm -rf "$folder"' EXIT

fail() {
    echo "$name: $1" >&2
    exit 1
}

if command -v mandoc > /dev/null; then
    # The footers name the release and not the system, and pages of ours need not be installed; mandoc notes both as a
    # matter of style.
    mandoc -T lint man/*.[15] 2> "$folder/said" |
        grep -v -e 'STYLE: operating system explicitly specified' -e 'STYLE: referenced manual not found' > "$folder/lint" || true
    for page in $(sed -n 's/^\.Xr \([a-z-]*\) \([15]\).*/\1.\2/p' man/*.[15] | sort -u); do
        [ -f "man/$page" ] || [[ $page != procmail* && $page != formail* && $page != lockfile* ]] || fail "no page man/$page"
    done
    [ ! -s "$folder/lint" ] || fail "mandoc finds: $(cat "$folder/lint")"
else
    echo "$name: no mandoc here: the form of the pages: skipped"
fi

# In an example a caret, a quote, a backquote, a tilde and a hyphen are escaped, so that they can be copied anywhere.
awk '/^\.Bd -literal/ { inside = 1; next }
    /^\.Ed/ { inside = 0 }
    inside && /[\^`'"'"'~]|(^|[^\\])-/ { print FILENAME ": " $0 }' man/*.[15] > "$folder/bare"
[ ! -s "$folder/bare" ] || fail "these examples have bare characters: $(cat "$folder/bare")"

# section PAGE TITLE: the lines of the section with this title.
section() {
    awk -v title="$2" '/^\.S[hs] / { inside = (substr($0, 5) == title); next } inside' "man/$1" > "$folder/section"
    [ -s "$folder/section" ] || fail "$1 has no section $2"
    cat "$folder/section"
}

# items MACRO: the items of a section that begin with this macro, without it.
items() {
    sed -n "s/^\\.It $1 //p" | sed 's/ .*//' | sed 's/\\&//g'
}

# same WHAT PAGE: the two sorted lists, that of the definitions and that of the page, are the same.
same() {
    sort -u "$folder/defined" > "$folder/one"
    sort -u "$folder/named" > "$folder/other"
    [ -s "$folder/one" ] || fail "the definitions have no $1: are they written in another way now?"
    comm -23 "$folder/one" "$folder/other" > "$folder/missing"
    comm -13 "$folder/one" "$folder/other" > "$folder/foreign"
    [ ! -s "$folder/missing" ] || fail "$2 lacks these $1: $(paste -sd, "$folder/missing")"
    [ ! -s "$folder/foreign" ] || fail "$2 has these $1, which no definition has: $(paste -sd, "$folder/foreign")"
}

# Log lines. A definition is a name, what it is of, and the text; the last word of what it is of stands in the quotes.
texts=crates/pm_journal/specs/LogText.antt
sed -n 's/ ++ / /g; s/^\([a-z_]*_line\)\( [a-z ]*\)\{0,1\}= /\1 /p' "$texts" |
    grep -v '^name_line ' > "$folder/definitions"
count=$(grep -c '^abbrev pub [a-z_]*_line :' "$texts")
[ "$(wc -l < "$folder/definitions")" -eq $((count - 1)) ] || fail "a log line is defined in another way now"
awk '{
    line = $0
    sub(/^[a-z_]+ /, "", line)
    quoted = ""
    if (line ~ /^name_line /) {
        count = split(line, words, " ")
        quoted = " \"" toupper(words[count]) "\""
        sub(/^name_line /, "", line)
        sub(/ [a-z]+$/, "", line)
        sub(/^\(/, "", line)
        sub(/\)$/, "", line)
    }
    text = ""
    while (line != "") {
        if (match(line, /^codes "[^"]*"/)) {
            text = text substr(line, 8, RLENGTH - 8)
        } else if (match(line, /^decimal [a-z]+/)) {
            text = text toupper(substr(line, 9, RLENGTH - 8))
        } else {
            match(line, /^./)
            if (line !~ /^ /) { text = text "?" }
        }
        line = substr(line, RLENGTH + 1)
    }
    sub(/^procmail: /, "", text)
    sub(/\\n$/, "", text)
    print text quoted
}' "$folder/definitions" > "$folder/defined"
sed -n 's/.*codes "procmail: \(.*\)\\n".*/\1/p' crates/pm_top/specs/*.antt >> "$folder/defined"
section procmail.1 DIAGNOSTICS | sed -n 's/^\.It //p' | sed 's/\\&//g; s/\\(dq/"/g' > "$folder/named"
same "log lines" procmail.1

# No other file of definitions has a log line of procmail's, but for worked runs, examples, and the reading of logs.
grep -l 'codes "procmail: ' crates/*/specs/*.antt | grep -v -e "$texts" -e crates/pm_top/ -e crates/pm_meaning/specs/Clones.antt -e /Examples.antt -e crates/log_summary/ > "$folder/files" || true
[ ! -s "$folder/files" ] || fail "log lines stand elsewhere too: $(cat "$folder/files")"

sed -n 's/.*codes "lockfile: \([^"\\]*\)\\"".*/\1"NAME"/p' crates/lockfile_top/specs/*.antt > "$folder/defined"
section lockfile.1 DIAGNOSTICS | sed -n 's/^\.It //p' | sed 's/\\(dq/"/g' > "$folder/named"
same "lines" lockfile.1

# Variables: names in capitals that the definitions read or set.
{
    grep -ho --exclude='*Examples.antt' --exclude=Leads.antt 'codes "[A-Z_][A-Z_]*"' crates/pm_meaning/specs/*.antt
} | sed 's/.*codes "\(.*\)"/\1/' > "$folder/defined"
section procmailrc.5 VARIABLES | items Ev > "$folder/named"
same "variables" procmailrc.5
cp "$folder/one" "$folder/variables"
section procmailrc.5 'Variables without effect' | sed -n 's/^\.Ev \([A-Z_]*\).*/\1/p' | sort > "$folder/idle"
comm -12 "$folder/variables" "$folder/idle" > "$folder/missing"
[ ! -s "$folder/missing" ] || fail "procmailrc.5 says that these have no effect: $(paste -sd, "$folder/missing")"
# Whatever else a page calls a variable is one of them; FILENO is one of formail 3.22's.
sed -n 's/^\.\(It \)\{0,1\}Ev \([A-Z_][A-Z_]*\).*/\2/p' man/*.[15] | sort -u > "$folder/named"
sort -u "$folder/variables" "$folder/idle" | comm -13 - "$folder/named" | grep -v -x FILENO > "$folder/foreign" || true
[ ! -s "$folder/foreign" ] || fail "the pages name variables that aren't there: $(paste -sd, "$folder/foreign")"

# Flags of recipes.
sed -n 's/.*flags_of (codes "\(.\)").*/\1/p' crates/pm_recipe/specs/Letters.antt > "$folder/defined"
section procmailrc.5 Flags | items Cm > "$folder/named"
same "flags" procmailrc.5

# Parameters and forms in braces have an item each.
sed -n 's/^parameter_value table (*\([A-Z][A-Za-z]*\).*/\1/p' crates/pm_subst/specs/Values.antt > "$folder/defined"
printf '%s\n' Program Argument ArgumentCount Process ExitCode Score Rcfile LastFolder > "$folder/named"
same "parameters" "the next line"
for form in '$0' '$1 No' '$#' '$$' '$?' '$=' '$_' '$-' '$\eNAME' '$NAME ,' '${NAME:-' '${NAME-' '${NAME:+' '${NAME+'; do
    section procmailrc.5 SUBSTITUTION | grep -qF ".It Li $form" || fail "procmailrc.5 has no item $form"
done

# Macros of expressions.
sed -n 's/^macro_name [A-Za-z]* = codes "\(.*\)"/\1/p' crates/pm_regex/specs/Macros.antt > "$folder/defined"
section procmailrc.5 Macros | items Li | sed 's/\\(ha/^/' > "$folder/named"
same "macros" procmailrc.5

# Their texts, which the page has in displays, and the definitions in pieces.
awk '/^macro_text [A-Za-z]* =/ { if (text != "") { print text } text = ""; inside = 1 }
    /^$/ { inside = 0 }
    inside { line = $0; while (match(line, /codes "([^"\\]|\\.)*"/)) {
        text = text substr(line, RSTART + 7, RLENGTH - 8); line = substr(line, RSTART + RLENGTH) } }
    END { print text }' crates/pm_regex/specs/Macros.antt | sed 's/\\t/<TAB>/g; s/\\\\/\\/g' > "$folder/defined"
section procmailrc.5 Macros |
    awk '/^\.Bd -literal/ { inside = 1; text = ""; next } /^\.Ed/ { inside = 0; print text } inside { text = text $0 }' |
    sed 's/\\(ha/^/g; s/\\-/-/g; s/\\e/\\/g' > "$folder/named"
[ "$(wc -l < "$folder/defined")" -eq 4 ] || fail "the macros are defined in another way now"
same "texts of macros" procmailrc.5

# Options of procmail. A number is written by N here.
words=crates/pm_top/specs/Words.antt
{
    grep -o 'is letter (codes "[a-zA-Z]")' "$words" | sed 's/.*"\(.\)".*/\1/'
    grep -ho 'codes "--[a-z]*"' crates/pm_*/specs/*.antt | sed 's/codes "-\(.*\)"/\1/'
} | sort -u > "$folder/defined"
section procmail.1 OPTIONS | items Fl > "$folder/named"
same "options" procmail.1

# letters: the letters of the bytes that come by their numbers, a line each.
letters() {
    while read -r byte; do printf "\\x$(printf %x "$byte")\n"; done
}

# Those of lockfile: letters by their bytes, whole words, and the seconds.
words=crates/lockfile_top/specs/Words.antt
{
    sed -n 's/.*nat_eq letter \([0-9]*\) .*/\1/p' "$words" | letters
    grep -o 'codes "-[a-z!]\{1,\}"' "$words" | sed 's/codes "-\(.*\)"/\1/'
    echo Ns
} > "$folder/defined"
section lockfile.1 OPTIONS | items Fl > "$folder/named"
same "options" lockfile.1

# Those of formail; `-N` is an item of its own, and `+N` no option.
words=crates/formail_top/specs/Words.antt
{
    grep -o 'letter == [0-9][0-9]*' "$words" | sed 's/.* //' | letters
    sed -n 's/.*(codes "\([a-zA-Z]*\)").*/\1/p' "$words" | grep -o .
    echo Ns
} > "$folder/defined"
section formail.1 OPTIONS | items Fl > "$folder/named"
same "options" formail.1
section formail.1 OPTIONS | grep -qx '\.It Cm + Ns Ar n' || fail "formail.1 lacks the option +N"

# Statuses: procmail's of the runs and the range of EXITCODE, lockfile's, procmail-check's, and formail's.
sed -n 's/^status_number [A-Za-z]* = \([0-9]*\)$/\1/p' crates/pm_meaning/specs/Status.antt > "$folder/defined"
echo 1 >> "$folder/defined"
section procmail.1 'EXIT STATUS' | sed -n 's/^\.It \([0-9]*\).*/\1/p' > "$folder/named"
same "statuses" procmail.1
sed -n 's/^status_number [A-Za-z]* = \([0-9]*\)$/\1/p' crates/lockfile_top/specs/Status.antt > "$folder/defined"
section lockfile.1 'EXIT STATUS' | sed -n 's/^\.It \([0-9]*\).*/\1/p' > "$folder/named"
same "statuses" lockfile.1
sed -n 's/^status_number [A-Za-z]* = \([0-9]*\)$/\1/p' crates/check_cli/specs/Status.antt > "$folder/defined"
section procmail-check.1 'EXIT STATUS' | sed -n 's/^\.It \([0-9]*\).*/\1/p' > "$folder/named"
same "statuses" procmail-check.1
grep -o -e 'status ≡ [0-9]*' -e 'Stops [0-9]*' -e '^feed_status [A-Za-z]* = [0-9]*' crates/formail_top/specs/Run.antt |
    sed -n 's/.* \([0-9]\{1,\}\)$/\1/p' > "$folder/defined"
section formail.1 'EXIT STATUS' | sed -n 's/^\.It \([0-9]*\).*/\1/p' > "$folder/named"
same "statuses" formail.1
echo "$name: passed"
