#!/usr/bin/env bash
# Many programs at once file their messages in one maildir and in one MH folder: each stands there once, with its bytes.
# Folders and names that others left don't stop a delivery, and one that fails leaves nothing.
set -eu
. "$(dirname "$0")/common.bash"
WORKERS=50
EACH=20
COUNT=$((WORKERS * EACH))
NAMES=100000

message() {
    printf 'From a@b Thu Jan  1 00:00:00 1970\nSubject: %s\n\nmessage %s\n' "$1" "$1"
}

# Each file of a folder as the number of its message, or as `torn` where its bytes are others.
numbers() {
    local file number
    for file in "$1"/*; do
        number=$(sed -n 's/^Subject: //p' "$file")
        cmp -s "$file" "message$number" && echo "$number" || echo "torn $file"
    done
}

# The messages of a folder are these, each once.
all_stand() {
    numbers "$1" > found
    grep -q torn found && fail "$2: $(grep torn found | head -n 1)"
    [ "$(wc -l < found)" -eq $COUNT ] && [ "$(sort -un found | wc -l)" -eq $COUNT ] || fail "$2: $(wc -l < found) files, of which $(sort -un found | wc -l) differ"
}

# One after the other, the messages of one worker by this rcfile. Where so many others file at once that all 100 names of
# an MH folder are taken, it tries again.
work() {
    local number
    for number in $(seq $((($2 - 1) * EACH + 1)) $(($2 * EACH))); do
        until "$program" -m "$1" < "message$number" 2> "said$1$2"; do
            grep -q 'No free name' "said$1$2" || { cat "said$1$2" >> failed; break; }
        done
    done
}

for number in $(seq $COUNT); do
    message "$number" > "message$number"
done

printf ':0\nmd/\n' > maildir
printf ':0\ninbox/.\n' > mh
for kind in maildir mh; do
    workers=()
    for worker in $(seq $WORKERS); do
        work $kind "$worker" &
        workers+=($!)
    done
    for one in "${workers[@]}"; do
        wait "$one"
    done
    [ ! -e failed ] || fail "$kind: $(head -n 1 failed)"
done
all_stand md/new "a maildir"
[ -z "$(ls -A md/tmp)" ] || fail "a maildir has files left in tmp: $(ls md/tmp | head -n 1)"
if command -v mlist > /dev/null; then
    [ "$(mlist md | wc -l)" -eq $COUNT ] || fail "mblaze lists $(mlist md | wc -l) messages of the maildir, and not $COUNT"
    echo "folders: mblaze lists all messages of the maildir"
fi
[ -z "$(ls -A md/cur)" ] || fail "a maildir has files in cur"
all_stand inbox "an MH folder"
[ "$(ls inbox | sort -n | tail -n 1)" -eq $COUNT ] || fail "the numbers of an MH folder have gaps, or are others"
echo "folders: $WORKERS programs at once, $EACH messages each: $COUNT files in a maildir and $COUNT in an MH folder, each once"

for made in md md/tmp md/new md/cur inbox; do
    [ "$(stat -c %a $made)" = 700 ] || fail "$made was made with the mode $(stat -c %a $made)"
done
for file in "md/new/$(ls md/new | head -n 1)" inbox/1; do
    [ "$(stat -c %a "$file")" = 600 ] || fail "$file was made with the mode $(stat -c %a "$file")"
done
echo "folders: what is made is its owner's only"

# What others left in an MH folder.
mkdir other other/7
: > other/01
: > other/x
touch "$(printf 'other/\377')"
printf ':0\nother/.\n' > rc
"$program" -m rc < message1 || fail "an MH folder with other names ended with status $?"
cmp -s other/8 message1 || fail "an MH folder with other names: no file 8"
echo "folders: a name that is no text, a subfolder and a number that begins with 0 don't stop a delivery"

# Many names.
mkdir many
(cd many && seq $NAMES | xargs touch)
printf ':0\nmany/.\n' > rc
began=$(date +%s)
"$program" -m rc < message2 || fail "an MH folder of $NAMES names ended with status $?"
took=$(($(date +%s) - began))
cmp -s many/$((NAMES + 1)) message2 || fail "an MH folder of $NAMES names: no file $((NAMES + 1))"
[ $took -le 20 ] || fail "an MH folder of $NAMES names took $took seconds"
echo "folders: an MH folder of $NAMES names in $took seconds"

# A plain folder, and one of each kind with its own copy.
mkdir plain
printf ':0 c\nplain both/. box/\n:0\n* LASTFOLDER ?? ^box/new/\nseen\n' > rc
"$program" -m rc < message3 || fail "folders of all kinds ended with status $?"
for file in plain/msg.* both/1 box/new/* seen; do
    [ -s "$file" ] || fail "folders of all kinds: $file is missing"
done
for file in plain/msg.* both/1 box/new/*; do
    cmp -s "$file" message3 || fail "folders of all kinds: $file has other bytes"
done
echo "folders: a plain folder, an MH folder and a maildir in one recipe"

# `new` is a file.
mkdir bad
: > bad/new
printf ':0\nbad/\n' > rc
"$program" -m rc < message4 2> said && fail "a maildir whose new is a file took a message"
grep -q "Couldn't write to \"bad\"" said || fail "a maildir whose new is a file: $(cat said)"
[ -f bad/new ] && [ ! -s bad/new ] || fail "a maildir whose new is a file: it changed"
[ ! -e bad/tmp ] || [ -z "$(ls -A bad/tmp)" ] || fail "a maildir whose new is a file has a file left in tmp"
echo "folders: a maildir whose new is a file takes nothing, and has nothing left"

# A file system that is full in the middle of the message.
{ message large; head -c 1048576 /dev/zero | tr '\0' 'x'; } > large
mkdir small
if mount -t tmpfs -o size=600k tmpfs small 2> /dev/null; then
    trap 'umount "$folder/small" 2> /dev/null || true; rm -rf "$folder"' EXIT
    mkdir small/plain
    for word in small/md/ small/inbox/. small/plain; do
        printf ':0\n%s\n' "$word" > rc
        status=0
        "$program" -m rc < large 2> said || status=$?
        [ $status -eq 73 ] || fail "a full file system: $word ended with status $status"
        place=${word%/.}
        [ "$(head -n 1 said)" = "procmail: Couldn't write to \"${place%/}\"" ] || fail "a full file system: $word: said $(cat said)"
        [ -z "$(find small -type f)" ] || fail "a full file system: $word has left $(find small -type f)"
        "$program" -m rc < message1 || fail "a full file system: $word then takes no small message"
        find small -type f -exec cmp -s {} message1 \; -delete
        [ -z "$(find small -type f)" ] || fail "a full file system: $word then has a small message with other bytes"
    done
    umount small
    trap 'rm -rf "$folder"' EXIT
    echo "folders: a full file system leaves nothing in a folder of any kind, and the failure is told"
else
    echo "folders: no small file system can be made here: skipped"
fi

# A folder without write permission; the superuser may write everywhere.
as_other=()
if [ "$(id -u)" -eq 0 ]; then
    command -v setpriv > /dev/null && as_other=(setpriv --reuid=65534 --regid=65534 --clear-groups)
fi
if [ "$(id -u)" -eq 0 ] && [ ${#as_other[@]} -eq 0 ]; then
    echo "folders: no other user to run as: a folder without write permission skipped"
else
    mkdir closed closed/box
    cp "$program" closed/program
    cp message5 closed/message
    printf ':0\nbox/.\n' > closed/rc
    chmod 755 . closed closed/program
    chmod 555 closed/box
    chmod 644 closed/rc closed/message
    (cd closed && "${as_other[@]}" ./program -m rc < message) 2> said && fail "a folder without write permission took a message"
    grep -q "Couldn't write to \"box\"" said || fail "a folder without write permission: $(cat said)"
    [ -z "$(ls -A closed/box)" ] || fail "a folder without write permission has a file"
    echo "folders: a folder without write permission takes nothing, and the failure is told"
fi
echo "folders: passed"
