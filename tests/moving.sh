#!/usr/bin/env bash
# The rows of docs/MOVING.md, as entries of tests/moving/rows. The old form here does what the row says. The new form
# here makes the files that the entry names; if procmail 3.22 is installed, it makes the same files by the old form.
# Each row of the page has an entry, and the code in its cells is in the rcfiles of its entries. examples/find-forms
# finds each old form, and none in the new ones.
set -eu
. "$(dirname "$0")/common.bash"
finder=$top/examples/find-forms

wrong() {
    echo "moving: $1" >&2
}

# Each entry becomes a directory of files, one for each key: the text after the key, or the indented lines below it.
mkdir entries mails
awk '
    function done() { if (file != "") { close(file); file = "" } waiting = 0 }
    /^#/ { next }
    /^row: / {
        done()
        dir = sprintf("entries/%03d", ++count)
        system("mkdir " dir)
        print substr($0, 6) > (dir "/row")
        close(dir "/row")
        next
    }
    /^mail [a-z-]*:$/ { done(); file = "mails/" substr($2, 1, length($2) - 1); printf "" > file; next }
    /^[a-z][a-z0-9. ]*:/ {
        done()
        key = $0; sub(/:.*/, "", key); gsub(/ /, "_", key)
        text = $0; sub(/^[^:]*: ?/, "", text)
        file = dir "/" key
        if (text != "") print text > file; else printf "" > file
        next
    }
    /^$/ { waiting++; next }
    file != "" { while (waiting > 0) { print "" > file; waiting-- } sub(/^  /, ""); print > file }
' "$top/tests/moving/rows"

# formail as it is, but that it takes all its input before it begins: else it is the machine's choice whether procmail
# sees that a formail which refuses its options took no mail.
cat > formail << SCRIPT
#!/bin/sh
in=\$(mktemp) && cat > "\$in" && "$programs/formail" "\$@" < "\$in"
status=\$?
rm -f "\$in"
exit \$status
SCRIPT
chmod +x formail

# run AGENT FORM ENTRY: deliver the mails of this entry by its old or new form, in a new home directory.
run() {
    local agent=$1 form=$2 entry=$3 delivers=$program mail status mails
    home=$folder/homes/$agent.$form/${entry##*/}
    mkdir -p "$home/bin"
    cp "$entry/$form" "$home/.procmailrc"
    if [ "$agent" = 3.22 ]; then
        delivers=$old_procmail
    elif [ "$form" = old ]; then
        cp formail "$home/bin/"
    else
        ln -s "$programs/formail" "$home/bin/"
    fi
    for made in setup "${form}_setup"; do
        [ ! -e "$entry/$made" ] || (cd "$home" && sh -e "$folder/$entry/$made")
    done
    local known=("HOME=$home" LOGNAME=joe "PATH=$home/bin:/usr/bin:/bin")
    local words
    words=$(cat "$entry/words" "$entry/${form}_words" 2> /dev/null || true)
    mails=$(cat "$entry/mails" 2> /dev/null || echo hi)
    [ "$agent.$form" != here.old ] || mails=$(cat "$entry/here_mails" 2> /dev/null || echo "$mails")
    # A run that is to wait for ever is given three seconds.
    local limit=60 expected=gives
    [ ! -e "$entry/then" ] || expected=then
    case $agent.$form in here.old) expected=here ;; 3.22.old) expected=gives ;; esac
    ! grep -qsx waits "$entry/$expected" || limit=3
    statuses=
    for mail in $mails; do
        status=$(
            (cd "$home" && exec env -i "${known[@]}" FOO=bar timeout "$limit" "$delivers" $words "${known[@]}" \
                SHELL=/bin/sh SENDMAIL=/bin/false DEFAULT="$home/inbox" ORGMAIL="$home/orgmail" \
                LOGFILE=log LOCKSLEEP=1 "$home/.procmailrc") < "mails/$mail" 9>&1 > "$home/printed" 2> "$home/said"
            echo $?
        )
        statuses="$statuses $status"
    done
    statuses=${statuses# }
    [ ! -e "$entry/later" ] || sleep "$(cat "$entry/later")"
}

# names: the files of the home directory but for the rcfile, the log and caches.
names() {
    (cd "$home" && find . -type f ! -path './bin/*' ! -name .procmailrc ! -name log ! -name '*.cache' \
        ! -name said ! \( -name printed -size 0 \) | sort)
}

# A file's name, with what is made of a time and a process as `*`.
shown_name() {
    sed -e 's|^\./||' -e 's|/new/[0-9].*|/new/*|' -e 's|msg\.[^/]*$|msg.*|' <<< "$1"
}

# listing: a line for each file, with the subjects in it or its text, and the statuses unless all are 0.
listing() {
    local file text
    names | while IFS= read -r file; do
        text=$(sed -n 's/^Subject: *//p' "$home/$file" | paste -sd, | sed 's/,/, /g')
        count=$(awk 'before == "" && /^From / { count++ } { before = $0 } END { print count + 0 }' "$home/$file")
        subjects=$(grep -c '^Subject:' "$home/$file" || true)
        case $count in 0 | "$subjects") ;; 1) text="$text (1 mail)" ;; *) text="$text ($count mails)" ;; esac
        [ -n "$text" ] || text=$(tr '\n' ' ' < "$home/$file" | sed -e 's/ *$//' -e 's/^ *//')
        echo "$(shown_name "$file"): $text" | sed 's/ *$//'
    done
    case $statuses in
        124) echo waits ;;
        *[1-9]*) echo "status $statuses" ;;
    esac
}

# logged: the lines of the log.
logged() {
    sed -n 's/^procmail: //p' "$home/log" 2> /dev/null | sed "s|$home|\$HOME|g" || true
}

# tree: the names and bytes of all files. A `From ` line that is made has another time, and what 3.22 hands to programs
# ends with an empty line more.
tree() {
    local file
    names | while IFS= read -r file; do
        echo "== $(shown_name "$file")"
        sed -e 's/^\(From [^ ]*\) .*/\1/' "$home/$file" | sed -e '${/^$/d}'
    done
    echo "== status $statuses"
}

# expects ENTRY KEY WHAT: what was listed is this key of the entry.
expects() {
    [ -e "$1/$2" ] || printf '' > "$1/$2"
    cmp -s "$1/is" "$1/$2" || wrong "$about: $3 gives
$(sed 's/^/  /' "$1/is")"
}

old_procmail=$(command -v procmail || true)
if ! { [ -n "$old_procmail" ] && "$old_procmail" -v 2>&1 < /dev/null | grep -q 'v3\.2[23]'; }; then old_procmail=; fi
if [ -n "$old_procmail" ]; then
    spool=/var/mail/$(id -un)
    [ -e "$spool" ] || trap 'rm -rf "$folder"; [ -s "$spool" ] || rm -f "$spool" 2> /dev/null || true' EXIT
fi

try() {
    local entry=$1 then=gives
    [ ! -e "$entry/then" ] || then=then
    if [ -n "$old_procmail" ] && [ ! -e "$entry/not_under_3.22" ]; then
        run 3.22 old "$entry"
        listing > "$entry/is"
        expects "$entry" gives "the old form under 3.22"
        tree > "$entry/tree.old"
        if [ -e "$entry/new" ] && [ ! -e "$entry/only_here" ]; then
            run 3.22 new "$entry"
            listing > "$entry/is"
            expects "$entry" "$then" "the new form under 3.22"
            tree > "$entry/tree.new"
        fi
    fi
    run here old "$entry"
    { listing; logged | sed 's/^/log: /'; } > "$entry/is"
    expects "$entry" here "the old form here"
    [ -e "$entry/new" ] || return 0
    run here new "$entry"
    listing > "$entry/is"
    expects "$entry" "$then" "the new form here"
    logged > "$entry/is"
    expects "$entry" new_log "the log of the new form here"
    tree > "$entry/tree"
    for other in old new; do
        [ -e "$entry/tree.$other" ] && [ "$other.$then" != old.then ] || continue
        cmp -s "$entry/tree" "$entry/tree.$other" ||
            wrong "$about: the $other form under 3.22 leaves other bytes: $(diff "$entry/tree" "$entry/tree.$other")"
    done
}

# forms ENTRY: the script finds the old form by its name, and none in the new one. It is shown a form of a command line
# as a line of .forward.
forms() {
    local old=$1/old found
    if [ -e "$1/old_words" ]; then
        old=$1/forward
        echo "|procmail $(cat "$1/old_words")" > "$old"
    fi
    "$finder" "$old" > "$1/is" && found=0 || found=$?
    if [ -e "$1/finds" ]; then
        [ "$found" = 1 ] || wrong "$about: the status of find-forms is $found"
        grep -qF ": $(cat "$1/finds"): " "$1/is" ||
            wrong "$about: find-forms doesn't say '$(cat "$1/finds")' but $(cat "$1/is")"
    fi
    if [ -e "$1/new" ]; then
        "$finder" "$1/new" > "$1/is" || wrong "$about: find-forms says of the new form $(cat "$1/is")"
    fi
}

# has_span SPAN: it stands in $text; `..` stands for any bytes.
has_span() {
    local span=$1 left=$text part
    while [ -n "$span" ]; do
        part=${span%%..*}
        case $left in *"$part"*) left=${left#*"$part"} ;; *) return 1 ;; esac
        case $span in *..*) span=${span#*..} ;; *) span= ;; esac
    done
}

# spans CELL: what stands as code in a cell of the page, a line each.
spans() {
    sed -e 's/``\([^`]*`[^`]*`[^`]*\)``/\n=\1\n/g' <<< "$1" |
        sed -e '/^=/b' -e 's/`\([^`]*\)`/\n=\1\n/g' | sed -n 's/^=//p'
}

# texts KEY..: these keys of all entries of the row $row.
texts() {
    local entry key
    grep -lxF -- "$row" entries/*/row | while read -r entry; do
        for key in "$@"; do cat "${entry%row}$key" 2> /dev/null || true; done
    done
}

# stands ROW CELL WHAT KEY..: each code of the cell stands in these keys of the row's entries.
stands() {
    local row=$1 cell=$2 what=$3 text span
    text=$(texts "${@:4}")
    [ "$what" != Here ] || text="$text
$(cat mails/*)"
    spans "$cell" | while IFS= read -r span; do
        has_span "$span" || wrong "$row: what the page has as code in '$what' isn't in its entries: $span"
    done
}

# The page and the entries have the same rows; and what the page shows as code is what is run.
page() {
    local section= row old here new found
    grep -e '^|' -e '^## ' "$top/docs/MOVING.md" | sed 's/\\|/\x02/g' > cells
    while IFS='|' read -r before row old here new rest; do
        case $before in '## '*) section=${before#'## '} ;; esac
        row=${row# } row=${row% }
        case $row in '' | 'Look for' | ---) continue ;; esac
        row=${row//$'\x02'/\\|}
        echo "$row"
        grep -qxF -- "$row" entries/*/row || { wrong "no entry for the row $row of the page"; continue; }
        found=$(grep -lxF -- "$row" entries/*/row | sed 's/row$/finds/' | xargs ls 2> /dev/null || true)
        case $section in
            'What find-forms does not find') [ -z "$found" ] || wrong "$row: find-forms finds it" ;;
            *) [ -n "$found" ] || wrong "$row: find-forms doesn't find it" ;;
        esac
        stands "$row" "${row//\\|/|}" 'Look for' old words old_words
        stands "$row" "${new//$'\x02'/|}" 'Write instead' new words new_words new_setup
        stands "$row" "${old//$'\x02'/|} ${here//$'\x02'/|}" 'Here' old new here gives new_log
    done < cells > rows_of_page
    cat entries/*/row | sort -u | grep -vxFf rows_of_page > missing || true
    [ ! -s missing ] || wrong "the page lacks the rows: $(cat missing)"
}
page 2> page_wrongs
cat page_wrongs >&2

# Most of a run is sleep, 3.22's where it writes to a mailbox, so some run at a time.
at_once=0
for entry in entries/${ENTRY:-*}; do
    row=$(cat "$entry/row")
    about="$row (entry ${entry##*/})"
    { try "$entry"; forms "$entry"; } 2> "$entry/wrongs" &
    at_once=$((at_once + 1))
    [ "$at_once" -lt 20 ] || { wait -n; at_once=$((at_once - 1)); }
done
wait
cat entries/*/wrongs >&2
[ -z "$(cat page_wrongs entries/*/wrongs)" ] || fail "some rows are wrong"
"$finder" "$top"/examples/*.rc || fail "find-forms finds the above in the examples"
count=$(sort -u entries/*/row | wc -l)
if [ -n "$old_procmail" ]; then
    echo "moving: the $count rows do what the page says, here and under procmail 3.22"
else
    echo "moving: the $count rows do here what the page says; procmail 3.22 isn't installed, so it was not asked"
fi
