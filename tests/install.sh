#!/usr/bin/env bash
# make install puts the programs, pages, documents and examples below DESTDIR and PREFIX, with their modes, and builds
# nothing; make uninstall removes them and nothing else. Without a program in bin/ nothing is put anywhere. install.sh puts
# them beside another procmail under a suffix, and a second version takes the place of the first.
set -eu
. "$(dirname "$0")/common.bash"
umask 077

# make_in PLACE TARGET..: make in the repository, for this folder below DESTDIR.
make_in() {
    make -s -C "$top" "${@:2}" BIN="$programs" DESTDIR="$folder/$1" > said 2>&1 || fail "make ${*:2} ended with status $?: $(cat said)"
}

# has_all FOLDER: the programs and pages stand there, each as it is here, and nothing else.
has_all() {
    for one in procmail formail lockfile; do
        cmp -s "$1/bin/$one" "$programs/$one" || fail "$1/bin/$one isn't the program"
        [ "$(stat -c %a "$1/bin/$one")" = 755 ] || fail "$1/bin/$one has the mode $(stat -c %a "$1/bin/$one")"
    done
    for page in "$top"/man/*.[15]; do
        there=$1/share/man/man${page##*.}/$(basename "$page")
        cmp -s "$there" "$page" || fail "$there isn't the page"
        [ "$(stat -c %a "$there")" = 644 ] || fail "$there has the mode $(stat -c %a "$there")"
    done
    documents=$1/share/doc/procmail-proved
    for one in README.md VERSION CHANGELOG.md docs/SERVERS.md examples/lists.rc; do
        cmp -s "$documents/$one" "$top/$one" || fail "$documents/$one isn't that of the repository"
    done
    (cd "$folder" && find "${1#"$folder/"}" -type f) | sort > there
    sed -n "s|^file |$2|p" "$documents/installed" | sort > listed
    grep -v '/installed$' there | cmp -s - listed || fail "there is more or less than installed says: $(diff there listed)"
}

ls -l --time-style=full-iso "$programs" > before
make_in one install
has_all one/usr/local one
ls -l --time-style=full-iso "$programs" | cmp -s - before || fail "make install changed the directory of the programs"
printf 'A: b\n\nhi\n' > message
printf ':0\nmbox\n' > rc
one/usr/local/bin/procmail -m rc < message || fail "the installed procmail ended with status $?"
[ -s mbox ] || fail "the installed procmail didn't deliver"

# Once more in the same place, and elsewhere, with a blank in the name.
make_in one install
has_all one/usr/local one
make_in "with blank" install PREFIX=/opt/mail
has_all "with blank/opt/mail" "with blank"

# What else stands there stays, with its directories; those that were made for our files alone are removed.
echo other > one/usr/local/bin/other
make_in one uninstall
[ "$(find one -type f)" = one/usr/local/bin/other ] || fail "make uninstall left or took: $(find one -type f)"
[ ! -e one/usr/local/share ] || fail "make uninstall left $(find one/usr/local/share)"
status=0
make -s -C "$top" uninstall DESTDIR="$folder/one" > said 2>&1 || status=$?
[ "$status" -ne 0 ] && grep -q 'nothing is installed there' said || fail "a second make uninstall said: $(cat said)"
mkdir -p "with blank/opt/mail/share/kept"
make_in "with blank" uninstall PREFIX=/opt/mail
[ -z "$(find "with blank" -type f)" ] || fail "make uninstall left: $(find "with blank" -type f)"
[ -d "with blank/opt/mail/share/kept" ] || fail "make uninstall removed a directory that isn't ours"

# Single places, a suffix, and both installations side by side; the one goes and the other stays.
make_in places install BINDIR=/b MANDIR=/m DOCDIR=/d
[ -x places/b/procmail ] && [ -f places/m/man5/procmailrc.5 ] && [ -f places/d/README.md ] || fail "BINDIR, MANDIR or DOCDIR is not heeded"
[ ! -e places/usr/local/bin ] && [ ! -e places/usr/local/share/man ] && [ ! -e places/usr/local/share/doc ] ||
    fail "make install put something below PREFIX too: $(find places/usr)"
for one in bash-completion/completions/procmail zsh/site-functions/_formail fish/vendor_completions.d/lockfile.fish; do
    [ -f "places/usr/local/share/$one" ] || fail "make install put no $one"
done
"$top/install.sh" DESTDIR="$folder/side"
"$top/install.sh" DESTDIR="$folder/side" --suffix -new
cmp -s side/usr/local/bin/procmail-new side/usr/local/bin/procmail || fail "the suffix gives no second procmail"
[ -f side/usr/local/share/man/man1/procmail-new.1 ] || fail "the suffix gives no second page"
"$top/install.sh" DESTDIR="$folder/side" --suffix -new --uninstall
[ -x side/usr/local/bin/procmail ] && [ -z "$(find side -name '*-new*')" ] || fail "a suffix was removed wrongly: $(find side -name '*-new*')"

# A later version that lacks a file removes it, and --uninstall then finds all.
cp -r "$top/install.sh" "$top/man" "$top/docs" "$top/examples" "$top/README.md" "$top/VERSION" "$top/CHANGELOG.md" .
mkdir bin && cp "$programs/procmail" "$programs/formail" "$programs/lockfile" bin
rm docs/SERVERS.md
./install.sh DESTDIR="$folder/side"
[ ! -e side/usr/local/share/doc/procmail-proved/docs/SERVERS.md ] || fail "a file of the earlier version is left"
./install.sh DESTDIR="$folder/side" --uninstall
[ -z "$(find side -type f)" ] && [ ! -e side/usr ] || fail "left: $(find side)"

# Without a program nothing is put anywhere, and what is missing is said.
mkdir -p bare/bin
cp -r "$top/Makefile" "$top/install.sh" "$top/man" bare
cp "$programs/procmail" "$programs/lockfile" bare/bin
status=0
make -s -C bare install BIN=bin DESTDIR="$folder/two" > said 2>&1 || status=$?
[ "$status" -ne 0 ] || fail "make install went well without a program"
grep -q 'bin/formail is missing' said || fail "make install said: $(cat said)"
[ ! -e two ] || fail "make install put something in place without a program"
echo "$name: passed"
