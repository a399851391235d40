#!/usr/bin/env bash
# Each bullet of docs/DIFFERENCES.md has rows in tests/differences/. A row runs one shell line with the programs of bin/
# and, where Debian's packages of 3.22 are installed, with those too. What it prints, its status and the files that it
# makes or changes are compared with the row. Arguments are names of groups, which are the files of tests/differences/
# without their ending; without arguments all groups are run.
#
# The lines of a group are these. A text is lines that begin with two blanks and '|'.
#
#   bullet TEXT    the rows below belong to the bullet of the page that begins with TEXT
#   row NAME       begins a row
#   rcfile, mail   the file of this name as a text; 'mail' is a short mail where the row has none
#   file NAME      any other file, as a text
#   before         shell lines that are run first, with neither program
#   needs LINE     the row is left out where this shell line fails, for want of a program
#   run LINE       the shell line; where the row has none: procmail SHELL=/bin/sh DEFAULT=rest ./rcfile < mail
#   3.22, ours     what comes of it, as the lines below
#   both           the same, where it is the same with both
#
#   status N       the exit status of the shell line
#   stdout, stderr what it printed there, as a text, where it printed something
#   mailbox NAME   a new or changed file: the mail and an empty line
#   copy NAME      a new or changed file: the mail
#   file NAME      any other new or changed file, as a text
#   link NAME, directory NAME, other NAME, gone NAME
#                  a new symbolic link, empty directory or special file, and what isn't there any more
#
# The line runs in a fresh directory, which is also HOME. In what is shown the directory is DIR, a date is NOW, and
# changing parts of names are TIME, PID, N, CODE and HOST. A byte that can't be printed is shown as 'cat -v' does, a
# blank at the end of a line as \040, and a text without a newline at its end has the line '\c' there.
set -eu
groups=$(cd "$(dirname "$0")/differences" && pwd)
. "$(dirname "$0")/common.bash"
page=$top/docs/DIFFERENCES.md
export LC_ALL=C

# Cuts groups into a directory for each row, with a file for each text of it.
split() {
    awk -v out="$folder/rows" '
        function wrong(what) { print FILENAME ", line " FNR ": " what > "/dev/stderr"; exit 1 }
        function put(file, text) { file = dir "/" file; printf "%s", text >> file; close(file) }
        FNR == 1 { bullet = dir = text = ""; group = FILENAME; gsub(/.*\/|\.rows$/, "", group) }
        /^(#.*)?$/ { next }
        sub(/^bullet /, "") { bullet = $0; dir = text = ""; next }
        sub(/^row /, "") {
            if (bullet == "") { wrong("a row before the first bullet") }
            if (seen[$0]++) { wrong("a second row " $0) }
            dir = sprintf("%s/%04d", out, ++count)
            system("mkdir -p " dir "/files")
            put("name", group ": " $0 "\n")
            put("bullet", bullet "\n")
            text = side = ""
            next
        }
        dir == "" { wrong("no row has begun") }
        /^(3\.22|ours|both)$/ { side = $0; text = ""; put(side, ""); next }
        side == "" && sub(/^run /, "") { put("run", $0 "\n"); text = ""; next }
        side == "" && sub(/^needs /, "") { put("needs", $0); text = ""; next }
        side == "" && /^(rcfile|mail)$/ { text = "files/" $0; put(text, ""); next }
        side == "" && /^file / { text = "files/" substr($0, 6); put(text, ""); next }
        side == "" && /^before$/ { text = "before"; next }
        text != "" && /^  \|( |$)/ { put(text, substr($0, 5) "\n"); next }
        side != "" && /^  (status [0-9]+|stdout|stderr|(mailbox|copy|file|link|directory|other|gone) .+)$/ ||
        side != "" && /^    (\|( |$)|\\c$)/ { put(side, $0 "\n"); next }
        { wrong("not understood: " $0) }' "$@"
}

# show KIND FILE: the file's text, as a row has it; of a standard stream only where there is one.
show() {
    if [ -s "$2" ]; then
        echo "  $1"
        cat -v "$2" | sed -E -f "$here.texts"
        [ -z "$(tail -c 1 "$2" | tr '\0' x)" ] || printf '\n    \\c\n'
    elif [ "${1%% *}" = file ]; then
        echo "  $1"
    fi
}

# changes: what is in the directory and wasn't in its copy, as a row has it.
changes() {
    local path new old name
    (cd "$here" && find . -mindepth 1 | sort | cut -c 3-) | while read -r path; do
        new=$here/$path old=$here.before/$path name=$path
        case $path in *[0-9]* | *msg.*) name=$(sed -E -f "$folder/names" <<< "$path") ;; esac
        if [ -L "$new" ]; then
            [ -L "$old" ] || echo "  link $name"
        elif [ -d "$new" ]; then
            [ -d "$old" ] || [ -n "$(ls -A "$new")" ] || echo "  directory $name"
        elif [ ! -f "$new" ]; then
            [ -e "$old" ] || echo "  other $name"
        elif [ -L "$old" ] || ! cmp -s "$new" "$old"; then
            if cmp -s "$new" "$here.mailbox"; then
                echo "  mailbox $name"
            elif cmp -s "$new" "$here.before/mail"; then
                echo "  copy $name"
            else
                show "file $name" "$new"
            fi
        fi
    done
    (cd "$here.before" && find . -mindepth 1 | sort | cut -c 3-) | while read -r path; do
        [ -e "$here/$path" ] || [ -L "$here/$path" ] || echo "  gone $path"
    done
}

# try ROW SIDE BIN: what comes of the row with the programs of BIN. The line is over once all that it started is, since
# 3.22 doesn't wait for its programs: all of them have the output of $(..) as descriptor 9.
try() {
    here=$1/$2.here
    mkdir "$here"
    cp mail "$here/mail"
    cp -R "$1/files/." "$here/"
    sed -E -e "s#@#$here#g" shown > "$here.texts"
    cd "$here"
    [ ! -f "$1/before" ] || env -i PATH=/usr/bin:/bin HOME="$here" LOGNAME=joe bash -eu "$1/before" > /dev/null
    { cat mail; echo; } > "$here.mailbox"
    cp -a "$here" "$here.before"
    status=$(
        env -i PATH="$3:/usr/bin:/bin" HOME="$here" LOGNAME=joe timeout 300 bash "$1/run" 9>&1 \
            > "$here.stdout" 2> "$here.stderr" < /dev/null
        echo $?
    )
    echo "  status $status"
    show stdout "$here.stdout"
    show stderr "$here.stderr"
    changes
    cd "$folder"
}

printf '%s\n' 'From ann@example.org Thu Jan  1 00:00:00 1970' 'From: ann@example.org' 'To: joe@example.org' \
    'Subject: hi' '' 'hello' > mail
echo 'procmail SHELL=/bin/sh DEFAULT=rest ./rcfile < mail' > run
cat > names <<'SED'
s/[0-9]{9,}\.[0-9]+_[0-9]+\.[A-Za-z0-9._-]+/TIME.PID_N.HOST/g
s/msg\.[0-9]+\.[0-9]+_[0-9]+/msg.TIME.PID_N/g
s/msg\.[A-Za-z0-9_-]{4,}$/msg.CODE/g
SED
{
    echo 's#@#DIR#g'
    cat names
    echo 's/[SMTWF][a-z]{2} [JFMASOND][a-z]{2} [ 0-9][0-9] [0-9:]{8} 20[0-9]{2}/NOW/g'
    echo 's/ $/\\040/'
    echo 's/^/    | /'
    echo 's/ $//'
} > shown

mkdir rows
chosen=$*
[ -n "$chosen" ] || chosen=$(cd "$groups" && ls ./*.rows | sed 's#^\./##; s#\.rows$##')
split $(printf "$groups/%s.rows " $chosen)

# Each bullet of the page has rows, and each row a bullet.
sed -n 's/^- //p' "$page" > bullets
sort -u rows/*/bullet > begun
while IFS= read -r begin; do
    count=$(begin=$begin awk 'index($0, ENVIRON["begin"]) == 1' bullets | wc -l)
    [ "$count" -eq 1 ] || fail "$count bullets of the page begin with: $begin"
done < begun
awk 'NR == FNR { begun[$0]; next }
    { for (one in begun) { if (index($0, one) == 1) { next } } print }' begun bullets > without
[ $# -gt 0 ] || [ ! -s without ] || fail "bullets of the page without a row: $(cat without)"

for row in rows/*; do
    [ -f "$row/run" ] || cp run "$row/run"
    case $(cd "$row" && ls -d 3.22 ours both 2> /dev/null | paste -sd ' ') in
        '3.22 ours') ! cmp -s "$row/3.22" "$row/ours" || fail "$(cat "$row/name") shows no difference" ;;
        both) ;;
        *) fail "$(cat "$row/name") doesn't say once what comes of it with each program" ;;
    esac
done

# 3.22, which makes the user's default mailbox where there is none.
agent=$(command -v procmail || true)
if [ -n "$agent" ] && "$agent" -v 2>&1 < /dev/null | grep -q 'v3\.2[23]'; then
    others=$(dirname "$agent")
    spool=/var/mail/$(id -un)
    [ -e "$spool" ] || trap 'rm -rf "$folder"; [ -s "$spool" ] || rm -f "$spool" 2> /dev/null || true' EXIT
else
    others=
fi

# compare ROW SIDE BIN: what comes of it is what the row says; else the file wrong.SIDE has the difference.
compare() {
    local wanted=$1/$2
    [ -f "$wanted" ] || wanted=$1/both
    try "$1" "$2" "$3" > "$1/seen.$2" 2>&1
    diff -u --label "the row" --label "what comes of it" "$wanted" "$1/seen.$2" > "$1/wrong.$2" || return 0
    rm "$1/wrong.$2"
}

# 3.22 sleeps a second for each mailbox that it makes, so 16 rows are tried at a time.
running=0 tried=0
for row in "$folder"/rows/*; do
    if [ -f "$row/needs" ] && ! bash -c "$(cat "$row/needs")" > /dev/null 2>&1; then
        echo "$name: $(cat "$row/name") is left out, since this fails here: $(cat "$row/needs")"
        continue
    fi
    if [ "$running" -ge 16 ]; then wait -n; else running=$((running + 1)); fi
    { [ -z "$others" ] || compare "$row" 3.22 "$others"; compare "$row" ours "$programs"; } &
    tried=$((tried + 1))
done
wait

# What 3.22 does can hang on the moment, and on memory that it never set. A result of it that isn't the row's is looked
# at once more, alone; ours has to be the row's at once.
for row in "$folder"/rows/*; do
    [ -f "$row/wrong.3.22" ] || continue
    echo "$name: $(cat "$row/name"): 3.22 is tried once more, alone"
    chmod -R u+rwX "$row"
    rm -rf "$row/wrong.3.22" "$row/seen.3.22" "$row"/3.22.here*
    compare "$row" 3.22 "$others"
done

wrong=0
for row in rows/*; do
    for side in 3.22 ours; do
        [ -f "$row/wrong.$side" ] || continue
        echo "$name: $(cat "$row/name"), with $side:" >&2
        cat "$row/wrong.$side" >&2
        wrong=$((wrong + 1))
    done
done
[ "$wrong" -eq 0 ] || fail "$wrong results aren't those of their rows"
if [ -n "$others" ]; then
    echo "$name: passed, with $tried rows, each with both programs"
else
    echo "$name: passed, with $tried rows; procmail 3.22 isn't installed, so its side was not tried"
fi
