#!/usr/bin/env bash
# The release: made twice it has the same bytes; in a fresh root without toolchain, make and compiler it is unpacked and
# installed, delivers a mail, shows its pages with name and version, and is removed again without a trace. Once in a Debian
# base (debootstrap, or a directory that RELEASE_BASE names), and once in a root that has nothing but a static busybox.
set -eu
. "$(dirname "$0")/common.bash"
version=$(cat "$top/VERSION")
release=procmail-proved-$version-x86_64-linux

skip() {
    echo "$name: skipped $1"
}

grep -q "^\\.Os procmail-proved $version\$" "$top"/man/procmail.1 || fail "the pages' footers don't name procmail-proved $version"
for page in "$top"/man/*.[15]; do
    [ "$(sed -n 's/^\.Os //p' "$page")" = "procmail-proved $version" ] || fail "$page doesn't name procmail-proved $version"
done
head -n 20 "$top/CHANGELOG.md" | grep -q "^## $version" || fail "CHANGELOG.md doesn't begin with $version"

# A gate that found a program kept from an earlier run has no object file of it, and the release has that of each program.
for crate in "$top"/crates/*_cli; do
    one=${crate##*/}
    if ! command -v rt > /dev/null || [ ! -f "$crate/out/$one.o" ]; then
        skip "the archive: there is no object file of $one here, as make leaves one"
        echo "$name: passed"
        exit 0
    fi
done
(cd "$top" && bash .ci/dist) > made || fail "make dist: $(cat made)"
cp "$top/dist/$release.tar.gz" first.tar.gz
(cd "$top" && bash .ci/dist) > made || fail "make dist: $(cat made)"
cmp -s first.tar.gz "$top/dist/$release.tar.gz" || fail "two runs of make dist gave different bytes"
if command -v dpkg-deb > /dev/null; then
    (cd "$top" && bash .ci/deb) > made || fail "make deb: $(cat made)"
    if command -v lintian > /dev/null; then
        # The copyright file waits for the owner's licence.
        lintian --allow-root "$top/dist/procmail-proved_${version}_amd64.deb" > said 2> /dev/null || true
        if grep '^E:' said | grep -v 'no-copyright-file'; then fail "lintian names errors"; fi
    else
        skip "lintian, which isn't installed"
    fi
else
    skip "the Debian package: dpkg-deb isn't there"
fi

# relinked: the object files of the archive link to the programs of the archive.
tar -xzf first.tar.gz
"$release/obj/link.sh" procmail "$folder/relinked" && cmp -s relinked "$release/bin/procmail" || fail "obj/link.sh gives another program"

# What is run in a root: install, deliver, read the pages, uninstall. It says 'all is well' at the end.
cat > in_root <<'IN'
set -eu
cd /tmp
gzip -dc release.tar.gz | tar -xf -
find / -xdev -path /tmp -prune -o -path /proc -prune -o -print | sort > before
cd procmail-proved-*/
./install.sh
cd /tmp
export HOME=/tmp/home PATH=/usr/local/bin:/usr/bin:/bin
mkdir -p home/Mail
printf 'From: a@b\nSubject: release\n\nhello\n' > mail
printf 'MAILDIR=$HOME/Mail\n\n:0:\n* ^Subject:.*release\nmbox\n' > rc
procmail -m /tmp/rc < mail
[ "$(grep -c hello home/Mail/mbox)" = 1 ]
formail -x Subject: < mail | grep -q release
lockfile -1 -r 1 a.lock && rm -f a.lock
if command -v mandoc > /dev/null; then
    for page in procmail.1 formail.1 lockfile.1 procmailrc.5 procmailsc.5 procmailex.5; do
        mandoc -T ascii "/usr/local/share/man/man${page#*.}/$page" | tail -n 1 | grep -q "procmail-proved VERSION"
    done
fi
procmail-proved-*/install.sh --uninstall
find / -xdev -path /tmp -prune -o -path /proc -prune -o -print | sort > after
cmp before after
echo all is well
IN
sed -i "s/VERSION/$version/" in_root

try_in() { # DIRECTORY SHELL
    mkdir -p "$1/tmp"
    cp first.tar.gz "$1/tmp/release.tar.gz"
    cp in_root "$1/tmp/in_root"
    chroot "$1" /usr/bin/env -i PATH=/usr/local/bin:/usr/bin:/bin $2 /tmp/in_root > said 2>&1 || fail "in $1: $(tail -n 5 said)"
    [ "$(tail -n 1 said)" = 'all is well' ] || fail "in $1: $(tail -n 5 said)"
}

if [ "$(id -u)" -ne 0 ]; then
    skip "the fresh roots: only root can change into one"
    echo "$name: passed"
    exit 0
fi

if busybox=$(command -v busybox) && ! ldd "$busybox" > /dev/null 2>&1; then
    mkdir -p small/bin small/usr/bin small/tmp small/usr/local small/proc small/dev
    cp "$busybox" small/bin/busybox
    for one in $("$busybox" --list); do [ "$one" = busybox ] || ln -sf /bin/busybox "small/bin/$one"; done
    ln -sf /bin/busybox small/usr/bin/env
    : > small/dev/null
    try_in small /bin/sh
else
    skip "the root without the C library: no static busybox is installed"
fi

if [ -d "${RELEASE_BASE:-}" ]; then
    cp -a "$RELEASE_BASE" base
    try_in base /bin/sh
elif command -v debootstrap > /dev/null && timeout 300 debootstrap --variant=minbase --include=mandoc stable base > said 2>&1; then
    for tool in rt make cc gcc; do
        [ ! -e "base/usr/bin/$tool" ] || fail "the fresh root has $tool"
    done
    try_in base /bin/sh
else
    skip "the Debian base: debootstrap isn't there, or had no packages"
fi
echo "$name: passed"
