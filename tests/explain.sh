#!/usr/bin/env bash
# The built program procmail-explain: on random rcfiles and mails its entries, log lines and status are what bin/procmail
# does in a copy of the tree, with formail and lockfile too, its recipes and conditions are those of the rcfile, with what
# another program says of each, and strace sees no call that changes a file. With --run conditions, filters and commands in
# backquotes answer as in a real run. A mailbox is explained mail by mail, and of 400 mails and two rcfiles exactly those are
# named that real runs put elsewhere. SEED and COUNT name other runs.
set -eu
. "$(dirname "$0")/common.bash"
explain=$programs/procmail-explain
[ -x "$explain" ] || { echo "$name: no procmail-explain here: skipped"; exit 0; }
RANDOM=${SEED:-3}
count=${COUNT:-200}

# Programs that do what procmail-explain takes for granted, and one whose answer is given.
mkdir stubs
printf '#!/bin/sh\nexec cat\n' > stubs/filter
printf '#!/bin/sh\ncat > /dev/null\n' > stubs/taker
printf '#!/bin/sh\ncat > /dev/null\nexit 3\n' > stubs/fails
chmod +x stubs/*

# pick WORD ..: `picked` is one of them. In a shell below this one RANDOM would begin anew, and not with SEED.
pick() {
    shift $((RANDOM % $#))
    picked=$1
}

condition() {
    pick '* ^Subject: one' '* ! ^Subject: one' '* > 100' '* ^From:.*ann' '* B ?? body' '* 1^1 o' '* ? taker' '* ? fails' \
        '* ^X-None:' '*'
    echo "$picked"
}

action() {
    pick one two old sub/box md/ newmd/ mh/. newmh/. plain no/such/place '| taker' '| fails' '!ann@example.org' \
        /dev/null '{ NOTE=seen }'
    echo "$picked"
}

recipe() {
    if [ $((RANDOM % 5)) -eq 0 ]; then
        pick '' w h b
        printf ':0 f%s\n| filter\n\n' "$picked"
        return
    fi
    pick '' '' : :own.lock c c: cw w
    printf ':0 %s\n' "$picked"
    for ((k = RANDOM % 3; k > 0; k--)); do condition; done
    action
    echo
}

rcfile() {
    printf 'PATH=%s:/bin:/usr/bin\nSENDMAIL=taker\nSHELL=/bin/sh\nLOGFILE=log\nLOGABSTRACT=all\nDEFAULT=default\nORGMAIL=default\n' "$folder/stubs"
    for ((n = 1 + RANDOM % 8; n > 0; n--)); do recipe; done
    [ $((RANDOM % 4)) -eq 0 ] || printf ':0\nlast\n'
}

mail() {
    pick ann bob
    printf 'From ann@example.org  Thu Jan  1 00:00:00 1970\nFrom: %s\n' "$picked"
    pick one two
    printf 'Subject: %s\n\n' "$picked"
    for ((n = RANDOM % 40; n > 0; n--)); do
        pick body 'From a line' '' 'another line'
        echo "$picked"
    done
}

# The tree in which a run begins.
tree() {
    mkdir -p "$1/sub" "$1/md/new" "$1/md/cur" "$1/md/tmp" "$1/mh" "$1/plain"
    printf 'From x  Thu Jan  1 00:00:00 1970\n\nold\n\n' | tee "$1/old" > "$1/mh/7"
}

# What a run left: the bytes of each file; of files with names of their own, how many of which length their directory has.
left() {
    (cd "$1" && find . -type f ! -name rc -printf '%P %s\n') |
        sed 's,^\(md\|newmd\)/\(new\|cur\|tmp\)/[^ ]*,\1/\2/FILE,; s,^plain/[^ ]*,plain/FILE,' | sort
}

# The same by the entries: each file of the tree with what is added to it.
told() {
    { (cd before && find . -type f ! -name rc -printf '%P %s\n'); cat "$1"; } | python3 -c '
import re, sys
sizes, made = {}, []
for line in sys.stdin:
    if not line.startswith("  ") and re.fullmatch(r"\S+ \d+\n", line):
        name, size = line.split()
        sizes[name] = int(size)
    elif (found := re.fullmatch(r"  append (\d+) bytes to (\S+)\n", line)) and not found[2].startswith("/dev/"):
        sizes[found[2]] = sizes.get(found[2], 0) + int(found[1])
    elif found := re.fullmatch(r"  file (\d+) bytes as (\S+)\n", line):
        made.append((found[2], found[1]))
lines = [f"{name} {size}" for name, size in list(sizes.items()) + made]
for line in lines:
    line = re.sub(r"^(md|newmd)/(new|cur|tmp)/\S+", r"\1/\2/FILE", line)
    print(re.sub(r"^plain/\S+", "plain/FILE", line))' | grep -v '^log ' | sort
}

command -v python3 > /dev/null || { echo "$name: no python3 here: skipped"; exit 0; }

# The recipes and conditions of a run are those of the rcfile, from the first on, each condition up to one that decides,
# with what came of it. Only after a recipe whose conditions held may the run be over.
cat > judged.py << 'END'
import re
rcfile = open("rc").read().split("\n")
mail = open("mail.txt").read()
head, _, body = mail.partition("\n\n")

def found(expression, area):
    return "yes" if re.search(expression, area, re.I | re.M) else "no"

# What comes of a condition after weighted ones that left this score, and the score after it.
def came(condition, score):
    if condition == "* 1^1 o":
        count = len(re.findall("o", head, re.I))
        score += count
        return "%d match%s, score %d" % (count, "" if count == 1 else "es", score), score
    return plainly(condition), score

def plainly(condition):
    if condition.startswith("* ? "):
        return "no" if condition == "* ? fails" else "yes"
    if condition == "* > 100":
        return "yes" if len(mail) > 100 else "no"
    if condition == "* B ?? body":
        return found("body", body)
    if condition.startswith("* ! "):
        return "no" if found(condition[4:], head) == "yes" else "yes"
    return found(condition[2:], head)

def holds(result):
    return result != "no" and not result.endswith(" score 0")

recipes = []
for number, line in enumerate(rcfile, 1):
    if line.startswith(":0"):
        recipes.append([(number, line.rstrip(), "yes")])
        ended = False
        score = 0
    elif line.startswith("*") and not ended:
        result, score = came(line, score)
        recipes[-1].append((number, line, result))
        ended = recipes[-1][-1][2] == "no"
told = []
for line in open("steps"):
    if recipe := re.fullmatch(r"rc:(\d+) +(:0.*)\n", line):
        told.append([(int(recipe[1]), recipe[2].rstrip(), "yes")])
    elif condition := re.fullmatch(r"  rc:(\d+) +(\*.*?)  +((?:yes|no|\d+ match).*)\n", line):
        told[-1].append((int(condition[1]), condition[2], condition[3]))
# The clones of blocks with c come after the first process, from their block on.
for index in range(1, len(told)):
    if told[index][0][0] <= told[index - 1][0][0]:
        told = told[:index]
        break
assert told == recipes[:len(told)], "told %s, wanted %s" % (told, recipes)
assert len(told) == len(recipes) or all(holds(result) for _, _, result in told[-1]), told
END
tree before
for ((run = 1; run <= count; run++)); do
    rm -rf real shown
    cp -r before real
    cp -r before shown
    rcfile > rc
    mail > mail.txt
    cp rc real/rc
    cp rc shown/rc
    status=0
    (cd real && "$program" -m rc < ../mail.txt > ../out 2> ../said) || status=$?
    (cd shown && "$explain" --answer 'fails=3' -m rc < ../mail.txt > ../steps 2> ../said.steps) ||
        fail "run $run: procmail-explain ended with $?: $(cat said.steps)"
    tail -n 1 steps | grep -q ", status $status\\. Nothing was changed\\.\$" ||
        fail "run $run: status $status, but $(tail -n 1 steps) by $(cat rc)"
    left real | grep -v '^log ' > real.left || true
    told steps > steps.left
    cmp -s real.left steps.left || fail "run $run (left: procmail): $(diff real.left steps.left) $(cat steps) by $(cat rc)"
    # Log lines, whose bytes below 32 are blanks in the entries.
    { tr '\n\t' '  ' < real/log 2> /dev/null || true; } | sed 's/Folder: \(md\|newmd\|plain\)\/[^ ]*/Folder: FILE/g' > real.log
    sed -n 's/^  log to log: //p' steps | tr -d '\n' | sed 's/Folder: \(md\|newmd\|plain\)\/[^ ]*/Folder: FILE/g' > steps.log
    cmp -s real.log steps.log || fail "run $run: the log is $(cat real.log), but told is $(cat steps.log)"
    python3 judged.py || fail "run $run: recipes and conditions: $(cat steps) by $(cat rc)"
    rm -f shown/rc
    [ "$(cd shown && find . | sort | xargs ls -ld --time-style=+ | awk '{ print $5, $6 }')" = \
        "$(cd before && find . | sort | xargs ls -ld --time-style=+ | awk '{ print $5, $6 }')" ] || fail "run $run changed a file"
    sed -n "\$s/ Nothing was changed.*//p" steps > last
    (cd shown && cp ../rc rc && "$explain" -q --answer 'fails=3' -m rc < ../mail.txt) | sed 's/ Nothing was changed.*//' > quiet
    sed 's,\(new/\|plain/\)[^,]*,FILE,' last > one
    sed 's,\(new/\|plain/\)[^,]*,FILE,' quiet > other
    cmp -s one other || fail "run $run: -q says $(cat quiet), without it $(cat last)"
done

# formail and lockfile are answered by their own code: what they write, their codes and what they leave are those of a real
# run. `$?` is the code of the program that was run last.
rm -rf real shown
cp -r before real
printf 'held' > real/held.lock
cat > real/rc << END
PATH=$programs:$folder/stubs:/bin:/usr/bin
SHELL=/bin/sh
LOGFILE=log
LOGABSTRACT=all
SUBJECT=\`formail -x Subject:\`
LOG="\$SUBJECT \$?
"
:0 fhw
| formail -I "X-Subject: \$SUBJECT" -a "X-New: yes"
FIELD=\`$programs/formail -cx X-Subject: -X X-New\`
LOG="\$FIELD
"
:0
* ? formail -D 8192 cache
never
LOG="\$?
"
:0 c
* ? formail -D 8192 cache
twice
MAILDIR=sub
:0
* ? formail -D 8192 cache
never
:0 c:
* ^X-New: yes
* ? formail -D 8192 cache
twice
:0
* ! ? lockfile -r 0 mine.lock
never
:0
* ? lockfile -r 0 mine.lock
never
LOG="\$?
"
:0
* ? lockfile -1 -r 1 ../held.lock
never
LOG="\$?
"
:0
* ? lockfile no/such/place
never
LOG="\$?
"
:0
| formail +0 -s taker
END
cp -r real shown
printf 'From ann@example.org  Thu Jan  1 00:00:00 1970\nSubject: two\n  words\nMessage-ID: <1@example.org>\n\nbody\n' > one
(cd real && "$program" -m rc < ../one)
(cd shown && "$explain" -m rc < ../one) > steps
sed -n 's,^  log to \(sub/\)\?log: ,,p' steps | tr -d '\n' > steps.log
cat real/log real/sub/log | tr '\n\t' '  ' | cmp -s - steps.log ||
    fail "formail and lockfile: the log is $(cat real/log real/sub/log), but told is $(cat steps)"
left real | grep -v -E '(log|cache|\.lock) [0-9]*$' > real.left || true
told steps | grep -v '^sub/log ' > steps.left
cmp -s real.left steps.left || fail "formail and lockfile (left: procmail): $(diff real.left steps.left) $(cat steps)"
grep -q '^  append .* to sub/twice$' steps || fail "formail -D finds no mail that it has seen: $(cat steps)"
[ -e real/sub/mine.lock ] && [ -e real/sub/cache ] || fail "the real run left $(find real)"
[ ! -e shown/sub/mine.lock ] && [ ! -e shown/cache ] && [ ! -e shown/sub/cache ] || fail "formail or lockfile changed $(find shown)"
# A cache that is there is read.
cp real/cache shown/cache
(cd shown && "$explain" -m rc < ../one) | grep -q '^  append .* bytes to never$' || fail "a cache on the disk isn't read"
cmp -s real/cache shown/cache || fail "formail changed a cache"
# A shell isn't started, nor what it would run; and an answer comes first.
printf 'SHELL=/bin/sh\nX=`formail -x Subject: | cat`\nLOGFILE=log\n:0\nbox\n' > rc.shell
"$explain" -m ./rc.shell < one | grep -q '^  run formail -x Subject: | cat < [0-9]* bytes: 0, output taken' ||
    fail "a line of a shell: $("$explain" -m ./rc.shell < one)"
printf 'LOGFILE=log\nX=`formail -x Subject:`\nLOG="$X$?"\n:0\nbox\n' > rc.answer
printf given > given
"$explain" --answer 'formail -x Subject:=7:given' -m ./rc.answer < one | grep -qx '  log to log: given7' ||
    fail "an answer for formail: $("$explain" --answer 'formail -x Subject:=7:given' -m ./rc.answer < one)"

# lockfile's sleeps take no time here. 1,000,000 tries, as -1 asks for, are 999,999 sleeps: of 1,000 seconds each, they make a
# new lock file older than 999,998,500 seconds at the last try.
for limit in 999998500 999999500; do
    printf 'LOGFILE=log\nX=`lockfile -1000 -r-1 -l %s held.lock`\nLOG="$?"\n:0\nbox\n' "$limit" > rc.tries
    touch held.lock
    "$explain" -m ./rc.tries < one | sed -n 's/^  log to log: \([0-9]*\)$/\1/p'
done > told
printf '0\n73\n' | cmp -s - told || fail "as many tries as there are: $(cat told)"

# Recipes and conditions: an included rcfile, blocks, flags that keep a recipe from being tried, each kind of condition,
# and lines that aren't understood before a recipe.
printf '# a comment\n\n:0\n* ^From:\nnever\n' > rc.more
printf 'INCLUDERC=rc.more\nEMPTY=\nSHELL=/bin/sh\nLONG=%0100d\n' 0 > rc.judged
cat >> rc.judged << 'END'
:0
* ^Subject: none
never
:0 E
* ^Subject: *\/.*
* 20^0 ^Subject
* 5^1 B ?? o
* 10^1 > 102
* 3^0 ? taker
* -4^0 ? fails
{
    :0 A
    never
    :0
    * ! ^X-None:
    {
        :0 a
        never
        :0 e
        never
        :0 c:
        * < \
          1000
        inner
    }
}
:0 E
never
:0 z
* (
never
:0
* $ $LONG$LONG
never
:0
* 99999999999^1 x
never
:0 AE
never
:0
* ^Subject
# a comment
* -7^0 ^Subject
never
:0
| taker
END
cat > wanted << 'END'
rc.more:3   :0
  rc.more:4   * ^From:                            no
rc.judged:5   :0
  rc.judged:6   * ^Subject: none                    no
rc.judged:8   :0 E
  rc.judged:9   * ^Subject: *\/.*                   yes, MATCH is " two  words"
  rc.judged:10  * 20^0 ^Subject                     1 match, score 20
  rc.judged:11  * 5^1 B ?? o                        1 match, score 25
  rc.judged:12  * 10^1 > 102                        102 bytes, limit 102, score 35
  rc.judged:13  * 3^0 ? taker                       exit status 0, score 38
  rc.judged:14  * -4^0 ? fails                      exit status 3, score 38
rc.judged:16  :0 A                                  not tried: the last recipe without A or a didn't match
rc.judged:18  :0
  rc.judged:19  * ! ^X-None:                        yes
rc.judged:21  :0 a                                  not tried: the last recipe without A or a didn't match, or the one before didn't succeed
rc.judged:23  :0 e                                  not tried: the recipe before it didn't fail
rc.judged:25  :0 c:
  rc.judged:26  * < \           1000                yes
rc.judged:31  :0 E                                  not tried: a recipe before it was executed
rc.judged:33  :0 z
  rc.judged:34  * (                                 not a condition
rc.judged:36  :0
  rc.judged:37  * $ $LONG$LONG                      no
rc.judged:39  :0
  rc.judged:40  * 99999999999^1 x                   not a condition
rc.judged:42  :0 AE                                 not tried
rc.judged:44  :0
  rc.judged:45  * ^Subject                          yes
  rc.judged:47  * -7^0 ^Subject                     1 match, score -7
rc.judged:49  :0
END
"$explain" --answer fails=3 -m ./rc.judged < one > steps
sed 's,^\( *\)\./,\1,' steps | grep '^ *rc\.[a-z]*:' > told || true
cmp -s wanted told || fail "recipes and conditions: $(diff wanted told) $(cat steps)"
# What a recipe does stands between its line and the next one, and a program of a condition before its condition.
sed -n '/rc\.judged:26 /,/rc\.judged:31 /p' steps | sed '1d;$d;s/[0-9]* bytes/N bytes/' > told
printf '  lock inner.lock\n  append N bytes to inner\n  unlock inner.lock\n' | cmp -s - told || fail "a recipe's entries: $(cat steps)"
grep -A 1 '^  run taker' steps | sed -n 2p | grep -q 'rc\.judged:13 ' || fail "a program of a condition: $(cat steps)"
"$explain" --format json --answer fails=3 -m ./rc.judged < one | python3 -c '
import json, os, sys
told = json.load(sys.stdin)
recipes = {(os.path.basename(one["rcfile"]), one["line"]): one for one in told["recipes"]}
assert len(told["recipes"]) == len(recipes) == 15, told["recipes"]
assert recipes["rc.more", 3]["conditions"] == [{"line": 4, "text": "* ^From:", "holds": False}], told
first = recipes["rc.judged", 8]
assert first["text"] == ":0 E" and first["tried"], first
assert [list(one)[2:] for one in first["conditions"]] == [["holds", "match"], ["matches", "score"], ["matches", "score"],
    ["length", "limit", "score"], ["code", "score"], ["code", "score"]], first
assert first["conditions"][0]["match"] == " two  words", first
assert not recipes["rc.judged", 31]["tried"] and recipes["rc.judged", 31]["conditions"] == [], told
assert recipes["rc.judged", 33]["conditions"][0]["error"] == "not a condition", told
assert recipes["rc.judged", 36]["conditions"][0] == {"line": 37, "text": "* $ $LONG$LONG", "holds": False}, told
assert recipes["rc.judged", 44]["conditions"][1]["score"] == -7, told
assert [step["code"] for step in told["steps"] if step["name"] == "fails"] == [3], told["steps"]
inner = recipes["rc.judged", 25]
assert [step["act"] for step in told["steps"][inner["steps"]:inner["steps"] + 3]] == ["lock", "append", "unlock"], told'

# Of an rcfile that is read twice and changes between, the text that was read last counts.
printf '# a comment\n' > rc.grows
printf 'LOGFILE=log\nINCLUDERC=rc.grows\n:0 c\nrc.grows\nINCLUDERC=rc.grows\n' > rc.twice
printf 'From ann@example.org  Thu Jan  1 00:00:00 1970\nSubject: two\n\n:0\n* ^Subject: two\nchosen\n' | "$explain" -m ./rc.twice > steps
grep -q '^\(\./\)\?rc\.grows:5 *:0$' steps && grep -q '^  \(\./\)\?rc\.grows:6 *\* ^Subject: two *yes$' steps ||
    fail "an rcfile that is read twice: $(cat steps)"

# A program that failed is not where the mail went.
printf 'LOGFILE=log\n:0 c:\nbox\n:0 w\n| fails\nHOST=elsewhere\n' > rc.failed
"$explain" --answer fails=3 -m ./rc.failed < one | tail -n 1 > told
grep -q '^delivered to box, status ' told || fail "a program that failed: $(cat told)"
# With --run the programs of conditions, commands in backquotes and filters are started, and no other: those leave a file.
printf '#!/bin/sh\ncat > /dev/null\n: > "ran.$1"\necho output\n' > stubs/deliver
chmod +x stubs/deliver

asked() {
    pick '* ? grep -q body' '* ! ? grep -q "^Subject: one"' '* 1^0 ? grep -q ann' '* -1^0 ? grep -q nothing' '* ^Subject: one' \
        '* WHO ?? ann' '* $ ^Subject: `echo one`' '* ! ? fails' '*'
    echo "$picked"
}

started_recipe() {
    case $((RANDOM % 9)) in
        0) pick '' w hw && printf ':0 f%s\n| sed "s/^Subject: one/Subject: another/"\n' "$picked" ;;
        1) pick '' w && printf ':0 fb%s\n| tr a-z A-Z\n' "$picked" ;;
        2) printf ':0 fw\n| fails\n' ;;
        3) printf 'WHO=`sed -n "s/^From: //p"`\n' ;;
        4)
            pick '' w && printf ':0 %s\n' "$picked"
            asked
            printf 'GOT=| deliver capture\n'
            ;;
        *)
            pick '' c c: && printf ':0 %s\n' "$picked"
            for ((k = RANDOM % 3; k > 0; k--)); do asked; done
            pick one two old md/ plain '| deliver pipe' '!ann@example.org' '{ NOTE=seen }' && echo "$picked"
            ;;
    esac
    echo
}

for ((run = 1; run <= (count + 2) / 3; run++)); do
    rm -rf real shown
    cp -r before real
    cp -r before shown
    {
        printf 'PATH=%s:/bin:/usr/bin\nSENDMAIL=deliver\nSHELL=/bin/sh\nLOGFILE=log\nLOGABSTRACT=all\n' "$folder/stubs"
        printf 'DEFAULT=default\nORGMAIL=default\nTRAP="deliver trap"\n'
        for ((n = 3 + RANDOM % 8; n > 0; n--)); do started_recipe; done
    } > rc
    mail > mail.txt
    cp rc real/rc
    cp rc shown/rc
    status=0
    (cd real && "$program" -m rc < ../mail.txt > ../out 2> ../said) || status=$?
    (cd shown && "$explain" --run -m rc < ../mail.txt > ../steps 2> ../said.steps) ||
        fail "--run $run: procmail-explain ended with $?: $(cat said.steps)"
    tail -n 1 steps | grep -q ", status $status\\. " || fail "--run $run: status $status, but $(tail -n 1 steps) by $(cat rc)"
    left real | grep -v '^log \|^ran\.' > real.left || true
    told steps > steps.left
    cmp -s real.left steps.left || fail "--run $run (left: procmail): $(diff real.left steps.left) $(cat steps) by $(cat rc)"
    { tr '\n\t' '  ' < real/log 2> /dev/null || true; } | sed 's/Folder: \(md\|plain\)\/[^ ]*/Folder: FILE/g' > real.log
    sed -n 's/^  log to log: //p' steps | tr -d '\n' | sed 's/Folder: \(md\|plain\)\/[^ ]*/Folder: FILE/g' > steps.log
    cmp -s real.log steps.log || fail "--run $run: the log is $(cat real.log), but told is $(cat steps.log) by $(cat rc)"
    if grep '^  run ' steps | grep -v '^  run deliver ' | grep -q 'not started'; then fail "--run $run: not started: $(cat steps) by $(cat rc)"; fi
    if grep '^  run deliver ' steps | grep -v -q 'not started'; then fail "--run $run: a delivery is started: $(cat steps) by $(cat rc)"; fi
    rm -f shown/rc
    [ "$(cd shown && find . | sort | xargs ls -ld --time-style=+ | awk '{ print $5, $6 }')" = \
        "$(cd before && find . | sort | xargs ls -ld --time-style=+ | awk '{ print $5, $6 }')" ] || fail "--run $run changed a file by $(cat rc)"
done

# Each is started once, in MAILDIR and with the rcfile's variables; one that has an answer isn't started.
printf '#!/bin/sh\necho "$1 $PWD $X" >> "$COUNT"\nsed "s/^Subject: /&$1 /"\n' > stubs/counts
chmod +x stubs/counts
rm -rf shown
cp -r before shown
cat > shown/rc << END
PATH=$folder/stubs:/bin:/usr/bin
SHELL=/bin/sh
SENDMAIL=deliver
COUNT=$folder/count
TRAP="deliver trap"
X=yes
MAILDIR=sub
SUBJECT=\`counts one | grep ^Subject:\`
LOG="\$SUBJECT
"
:0
* ? counts two
* \$ ? counts \`echo three\`
{ NOTE=seen }
:0 fw
* ! ? counts four | grep -q nothing
| counts five
:0 c
| deliver pipe
:0 c
!ann@example.org
:0
GOT=| deliver capture
AFTER=\`counts six\`
:0 E
GOT=| counts never
:0
| deliver last
END
: > count
(cd shown && "$explain" --run -m rc < ../mail.txt) > steps
printf '%s yes\n' "one $folder/shown/sub" "two $folder/shown/sub" "three $folder/shown/sub" "four $folder/shown/sub" \
    "five $folder/shown/sub" "six $folder/shown/sub" | cmp -s - count || fail "--run started $(cat count) by $(cat shown/rc): $(cat steps)"
[ -z "$(find shown -name 'ran.*')" ] || fail "--run started a delivery: $(find shown -name 'ran.*')"
grep -q '^  say Subject: one ' steps || fail "--run: a command in backquotes: $(cat steps)"
grep -q '^  run counts five < [0-9]* bytes: 0, output taken$' steps || fail "--run: a filter's line: $(cat steps)"
grep -q '^  run deliver last < [0-9]* bytes: 0 \[not started\]$' steps || fail "--run: a delivery's line: $(cat steps)"
[ "$(tail -n 1 steps | sed 's/^.*, status/status/')" = 'status 0. Programs were started; nothing else was changed.' ] ||
    fail "--run: the last line: $(cat steps)"
: > count
(cd shown && "$explain" --run -q --answer 'counts two=1' -m rc < ../mail.txt) > quiet
cut -d ' ' -f 1 count | tr '\n' ' ' > told.count
[ "$(cat told.count)" = 'one four five six ' ] || fail "--run --answer started $(cat count)"
grep -q 'Programs were started; nothing else was changed\.$' quiet || fail "--run -q: $(cat quiet)"
printf ':0\n* ^Subject: none\nnever\n' > shown/rc
[ "$(cd shown && "$explain" --run -m rc < ../mail.txt)" = "$(cd shown && "$explain" -m rc < ../mail.txt)" ] || fail "--run without a program"
printf 'PATH=/bin:/usr/bin\n:0\n* ? grep -q one\nhere\n:0\nthere\n' > shown/rc
printf 'From a  Thu Jan  1 00:00:00 1970\nSubject: %s\n\n\n' one two > mailbox
[ "$(cd shown && "$explain" --run -s -q -m rc < ../mailbox | awk '{ print $(NF - 2) }' | tr -d ',' | tr '\n' ' ')" = 'here there ' ] ||
    fail "--run -s -q: $(cd shown && "$explain" --run -s -q -m rc < ../mailbox)"

# No call that writes, makes, moves or removes a file, but to standard output.
if command -v strace > /dev/null; then
    rm -rf shown
    cp -r before shown
    printf 'LOGFILE=log\n:0 f\n| filter\n:0 fw\n| formail -I X-New:\n:0\n* ? formail -D 8192 cache\nnever\n:0\n* ! ? lockfile -r 0 my.lock\nnever\n:0 c:\nold\n:0 c\nmd/\n:0 c\nmh/.\n:0 c\nnewmh/.\n:0\n| taker\n' > shown/rc
    (cd shown && strace -f -o ../calls "$explain" -m rc < ../mail.txt > /dev/null)
    grep -E '^[0-9]* *(open|openat|creat|write|pwrite64|writev|rename|renameat|renameat2|link|linkat|symlink|unlink|unlinkat|mkdir|mkdirat|rmdir|truncate|ftruncate|fallocate|chmod|fchmod|utimensat|mknod|mknodat|execve|clone|clone3|fork|vfork)\(' calls |
        grep -v -E '^[0-9]* *(write|writev)\(1,|^[0-9]* *execve\("[^"]*procmail-explain"' |
        grep -v -E '^[0-9]* *open(at)?\(.*O_RDONLY' > changing || true
    [ ! -s changing ] || fail "calls that change something: $(cat changing)"
else
    echo "$name: no strace here: its calls: skipped"
fi

# JSON, and what isn't understood.
(cd shown && "$explain" --format json -m rc < ../mail.txt) | python3 -c '
import json, sys
told = json.load(sys.stdin)
assert told["status"] == 0 and told["delivered_to"] == "taker", told
assert [step["act"] for step in told["steps"]].count("append") == 1, told'
ends() {
    local wanted=$1 status=0
    shift
    "$explain" "$@" > out 2> said < mail.txt || status=$?
    [ "$status" -eq "$wanted" ] || fail "$*: status $status, not $wanted: $(cat said)"
}
ends 64 --answer x -m rc
[ "$(cat said)" = "procmail-explain: no answer of the form LINE=CODE[:FILE]: x" ] || fail "an answer without a code: $(cat said)"
ends 66 --answer x=0:none -m rc
[ "$(cat said)" = "procmail-explain: can't read the file of x=0:none" ] || fail "an answer without its file: $(cat said)"
ends 64 -x
ends 0 --version
[ "$(cat out)" = "procmail-explain $(cat "$top/VERSION")" ] || fail "--version: $(cat out)"
# A mailbox: each mail is explained as it is alone, whatever the mails before it changed in their runs.
rm -rf shown
cp -r before shown
cat > shown/rc << 'END'
LOGFILE=log
:0 c
box
INCLUDERC=box
:0
* ^Subject: two
old
:0
| taker
END
for subject in one two one; do
    printf 'From ann@example.org  Thu Jan  1 00:00:00 1970\nSubject: %s\n\nX\n\nY\n\n' "$subject"
done > mailbox
"$programs/formail" -s sh -c 'cat > "piece.$(printf %03d "$(ls | grep -c "^piece")")"' < mailbox
mails=(piece.*)
[ ${#mails[@]} -eq 3 ] || fail "formail -s splits the mailbox into ${#mails[@]} mails"
number=0
for mail in "${mails[@]}"; do
    number=$((number + 1))
    echo "mail $number: $(grep -m 1 '^Subject:' "$mail")"
    (cd shown && "$explain" -m rc < "../$mail")
done > alone
(cd shown && "$explain" -s -m rc < ../mailbox) > together
cmp -s alone together || fail "-s: $(diff alone together)"
[ ! -e shown/box ] || fail "-s made a mailbox"
(cd shown && "$explain" -s --format json -m rc < ../mailbox) | python3 -c '
import json, sys
told = [json.loads(line) for line in sys.stdin]
assert [(one["mail"], one["subject"], one["delivered_to"]) for one in told] == [
    (1, "one", "taker"), (2, "two", "old"), (3, "one", "taker")], told
assert [[step["bytes"] for step in one["steps"] if step["name"] == "box"] for one in told] == [[67, 67]] * 3, told'
[ -z "$("$explain" -s -q -m shown/rc < /dev/null)" ] || fail "-s of no mail says something"

# The rows of the manual page.
cat > page.rc << 'END'
:0:
* ^Subject: one
important
:0:
rest
END
printf ':0:\n* ^Subject:.*bug\nbugs\n' | cat - page.rc > new.rc
{
    printf 'From ann@example.org  Thu Jan  1 00:00:00 1970\nSubject: one\n\nx\n\n'
    printf 'From ann@example.org  Thu Jan  1 00:00:00 1970\nSubject: [bug] crash\n\nx\n\n'
    printf 'From ann@example.org  Thu Jan  1 00:00:00 1970\n\nx\n'
} > last-week
# on_page ARGUMENT ..: what the example of these arguments prints, as it is in the manual page.
on_page() {
    sed -n '/^\.Sh EXAMPLES/,/^\.Sh DIAGNOSTICS/p' "$top/man/procmail-explain.1" | sed 's/\\-/-/g' |
        awk -v line="\$ procmail-explain $* -m ./rc < last-week" '$0 == line { shown = 1; next } /^\.Ed/ { shown = 0 } shown'
}
# shown_on_page LINE: what the manual page shows after this line, up to the next command.
shown_on_page() {
    sed -n '/^\.Sh EXAMPLES/,/^\.Sh DIAGNOSTICS/p' "$top/man/procmail-explain.1" | sed 's/\\-/-/g; s/\\(ha/^/g; s/^\\&//' |
        awk -v line="$1" '$0 == line { shown = 1; next } /^\.Ed/ || /^\$ / { shown = 0 } shown'
}
mkdir page
shown_on_page '$ cat rc' > page/rc
{
    printf 'From ann@example.org  Thu Jan  1 00:00:00 1970\nSubject: urgent\n\n'
    printf 'The deadline is today.\nAnd so is the other deadline.\n'
} > page/mail
(cd page && "$explain" -m ./rc < mail) > lines
shown_on_page '$ procmail-explain -m ./rc < mail' | cmp -s - lines && [ -s lines ] ||
    fail "the recipes aren't what the page shows: $(cat lines)"
"$explain" -s -q -m ./page.rc < last-week > lines
on_page -s -q | cmp -s - lines && [ -s lines ] || fail "-s -q isn't what the page shows: $(cat lines)"
"$explain" -s --compare new.rc -m ./page.rc < last-week > lines
on_page -s --compare new.rc | cmp -s - lines && [ -s lines ] || fail "--compare isn't what the page shows: $(cat lines)"
"$explain" -s -q --compare new.rc -m ./page.rc < last-week > lines
[ "$(cat lines)" = '1 of 3 mails goes elsewhere.' ] || fail "-q --compare: $(cat lines)"
printf 'Subject: a bug\n\n' | "$explain" --compare new.rc -m ./page.rc > lines
printf '1 of 1 mails goes elsewhere:\n     1  Subject: a bug                            rest -> bugs\n' | cmp -s - lines ||
    fail "--compare of one mail: $(cat lines)"
# Without -m both runs begin in the current directory too, since the old rcfile does.
(export HOME=$folder/before LOGNAME=joe && "$explain" -s -q --compare new.rc ./page.rc < last-week) > lines
[ "$(cat lines)" = '1 of 3 mails goes elsewhere.' ] || fail "--compare without -m: $(cat lines)"
"$explain" -s --format json --compare new.rc -m ./page.rc < last-week | python3 -c '
import json, sys
assert json.load(sys.stdin) == {"mails": 3, "elsewhere": 1, "moves": [{"mail": 2, "subject": "[bug] crash",
    "old": {"destinations": ["rest"], "status": 0}, "new": {"destinations": ["bugs"], "status": 0}}]}'
ends 66 --compare none.rc -m ./page.rc
[ "$(cat said)" = "procmail-explain: can't read none.rc" ] || fail "an rcfile that isn't there: $(cat said)"

# 400 mails by two rcfiles of 50 recipes: exactly the mails are named that two real runs put elsewhere, and each mail's
# destinations are where the real runs put it. Each real run begins with an empty tree. Programs and SENDMAIL note that
# they got a mail; those of conditions note nothing.
mkdir tools
printf '#!/bin/sh\ncat > /dev/null\necho >> "ran.$1"\n' > tools/taker
printf '#!/bin/sh\ncat > /dev/null\necho >> "sent.$*"\n' > tools/sender
printf '#!/bin/sh\ncat > /dev/null\nexit 0\n' > tools/asked
chmod +x tools/*
cat > make.py << 'END'
import random, sys
pick = random.Random(int(sys.argv[1]))
words = ["one", "two", "list", "bug", "deadline", "offer", "news", "report", "lunch", "fix"]
people = ["ann", "bob", "eve", "joe", "kim"]
head = "PATH=%s/tools:/bin:/usr/bin\nSENDMAIL=sender\nSHELL=/bin/sh\nLOGFILE=log\nDEFAULT=default\nORGMAIL=default\n" % sys.argv[2]

def condition():
    return "* " + pick.choice([
        "^Subject:.*\\<%s" % pick.choice(words), "^From:.*%s" % pick.choice(people), "! ^Subject:.*%s" % pick.choice(words),
        "B ?? %s" % pick.choice(words), "? asked", "> %d" % pick.randrange(100, 400), "^TO_%s" % pick.choice(people)])

def recipe(number):
    action = pick.choice(["box%d" % number, "box%d" % number, "md%d/" % number, "| taker %d" % number,
        "!%s%d@example.org" % (pick.choice(people), number), "/dev/null", "{ EXITCODE=%d }" % pick.randrange(1, 99)])
    flags = pick.choice(["", "", "c"]) if not action.startswith("{") else ""
    conditions = [condition() for _ in range(pick.randrange(3, 5))]
    return "\n".join([":0 " + flags + (":" if action.startswith("box") else "")] + conditions + [action]) + "\n"

recipes = [recipe(number) for number in range(50)]
other = [recipe(100 + n) if pick.random() < 0.15 else one for n, one in enumerate(recipes)]
open("old.rc", "w").write(head + "".join(recipes))
open("other.rc", "w").write(head + "".join(other))
with open("mails", "w") as out:
    for _ in range(400):
        out.write("From %s@example.org  Thu Jan  1 00:00:00 1970\nFrom: %s@example.org\nTo: %s@example.org\n" % (
            pick.choice(people), pick.choice(people), pick.choice(people)))
        out.write("Subject: %s %s\n\n" % (pick.choice(words), pick.choice(words)))
        for _ in range(pick.randrange(1, 12)):
            out.write(" ".join(pick.choice(words + ["and", "the"]) for _ in range(6)) + "\n")
        out.write("\n")
END
cat > real.py << 'END'
import collections, json, os, shutil, subprocess, sys
program, explain, formail = sys.argv[1:4]
os.mkdir("cut")
subprocess.run([formail, "-s", "sh", "-c", "cat > cut/$(printf %03d $(ls cut | wc -l))"], stdin=open("mails"), check=True)
names = sorted(os.listdir("cut"), key=int)
assert len(names) == 400, len(names)

def real(rcfile, name):
    shutil.rmtree("tree", ignore_errors=True)
    os.mkdir("tree")
    shutil.copy(rcfile, "tree/rc")
    status = subprocess.run([program, "-m", "rc"], stdin=open("cut/" + name), cwd="tree", stderr=subprocess.DEVNULL).returncode
    found = collections.Counter()
    for place in os.listdir("tree"):
        if place in ("rc", "log"):
            continue
        if place.startswith("md"):
            found[place] = len(os.listdir("tree/%s/new" % place))
        elif place.startswith("ran."):
            found["| taker " + place[4:]] = os.path.getsize("tree/" + place)
        elif place.startswith("sent."):
            found["forward " + place[5:].removeprefix("-oi ")] = os.path.getsize("tree/" + place)
        else:
            found[place] = sum(line.startswith(b"From ") for line in open("tree/" + place, "rb"))
    return found, status

def told(rcfile):
    out = subprocess.run([explain, "-s", "-q", "--format", "json", "-m", rcfile], stdin=open("mails"), capture_output=True, check=True)
    ones = [json.loads(line) for line in out.stdout.splitlines()]
    return [(collections.Counter(name for name in one["destinations"] if name != "/dev/null"), one["status"]) for one in ones]

olds, news = [[real(rcfile, name) for name in names] for rcfile in ("old.rc", "other.rc")]
for rcfile, reals in (("old.rc", olds), ("other.rc", news)):
    for number, (one, other) in enumerate(zip(reals, told(rcfile)), 1):
        assert one == other, "%s, mail %d: procmail %s, told %s" % (rcfile, number, one, other)
moved = [number for number, (old, new) in enumerate(zip(olds, news), 1) if old != new]
out = subprocess.run([explain, "-s", "--compare", "other.rc", "-m", "old.rc"], stdin=open("mails"), capture_output=True, check=True)
lines = out.stdout.decode().splitlines()
assert lines[0].startswith("%d of 400 mails go" % len(moved)), lines[0]
assert [int(line[:6]) for line in lines[1:]] == moved, (moved, lines)
assert 0 < len(moved) < 400, "the rcfiles are no test: %d mails go elsewhere" % len(moved)
END
python3 make.py "${SEED:-3}" "$folder"
python3 real.py "$program" "$explain" "$programs/formail" || fail "400 mails by two rcfiles (SEED=${SEED:-3})"
echo "$name: passed"
