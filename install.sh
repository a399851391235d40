#!/bin/sh
# Installs the programs, manual pages, documents, examples and completions of this directory, or removes them again:
#
#     ./install.sh [--suffix SUFFIX] [--uninstall] [PREFIX=DIR] [BINDIR=DIR] [MANDIR=DIR] [DOCDIR=DIR] [DESTDIR=DIR] [BIN=DIR]
#
# --suffix -proved installs procmail-proved, procmail-proved.1 and so on, beside another procmail. All is below PREFIX,
# /usr/local by default, and below DESTDIR, for packages. What was installed is listed in DOCDIR/installed, by which
# --uninstall removes it, and with it each directory that was made for it and is empty then. BIN has the programs, bin by
# default.
set -eu

PREFIX=/usr/local DESTDIR='' BINDIR='' MANDIR='' DOCDIR='' SHAREDIR='' BIN='' suffix='' task=install
while [ $# -gt 0 ]; do
    case $1 in
        --uninstall) task=uninstall ;;
        --suffix) [ $# -gt 1 ] || { echo "install.sh: --suffix needs a value" >&2; exit 64; }; suffix=$2; shift ;;
        --suffix=*) suffix=${1#--suffix=} ;;
        PREFIX=*) PREFIX=${1#PREFIX=} ;;
        DESTDIR=*) DESTDIR=${1#DESTDIR=} ;;
        BIN=*) BIN=${1#BIN=} ;;
        BINDIR=*) BINDIR=${1#BINDIR=} ;;
        MANDIR=*) MANDIR=${1#MANDIR=} ;;
        DOCDIR=*) DOCDIR=${1#DOCDIR=} ;;
        *) sed -n '2,9s/^# \{0,1\}//p' "$0" >&2; exit 64 ;;
    esac
    shift
done
case $suffix in */*) echo "install.sh: a suffix has no /" >&2; exit 64 ;; esac
BINDIR=${BINDIR:-$PREFIX/bin} MANDIR=${MANDIR:-$PREFIX/share/man} SHAREDIR=$PREFIX/share
DOCDIR=${DOCDIR:-$PREFIX/share/doc/procmail-proved$suffix}
list=$DESTDIR$DOCDIR/installed
here=$(cd "$(dirname "$0")" && pwd)
BIN=${BIN:-bin}
case $BIN in /*) ;; *) BIN=$here/$BIN ;; esac
programs='procmail formail lockfile'
for extra in procmail-check procmail-explain procmail-test procmail-stat; do
    if [ -f "$BIN/$extra" ]; then programs="$programs $extra"; fi
done

# make_directory DIR: with those above it; each one that is made is listed.
make_directory() {
    if [ -d "$DESTDIR$1" ]; then return 0; fi
    make_directory "$(dirname "$1")"
    mkdir -m 755 "$DESTDIR$1"
    echo "directory $1" >> "$list.new"
}

# put MODE FILE NAME: a running program isn't written into, its name gets the new file.
put() {
    make_directory "$(dirname "$3")"
    cp "$2" "$DESTDIR$3.new-$$"
    chmod "$1" "$DESTDIR$3.new-$$"
    mv -f "$DESTDIR$3.new-$$" "$DESTDIR$3"
    echo "file $3" >> "$list.new"
}

put_all() { # DIRECTORY FILE..
    put_into=$1
    shift
    for file in "$@"; do
        if [ ! -f "$file" ]; then continue; fi
        if [ -x "$file" ]; then put_mode=755; else put_mode=644; fi
        put "$put_mode" "$file" "$put_into/$(basename "$file")"
    done
}

# remove_listed LIST [KEPT]: its files but for those that KEPT lists too, and then its directories, the innermost first.
remove_listed() {
    sed -n 's/^file //p' "$1" | while IFS= read -r file; do
        if [ $# -gt 1 ] && grep -Fqx "file $file" "$2"; then continue; fi
        rm -f "$DESTDIR$file"
    done
}

remove_directories() { # on standard input, the outermost first
    sed -n 's/^directory //p' | sed '1!G;h;$!d' | while IFS= read -r directory; do
        rmdir "$DESTDIR$directory" 2> /dev/null || true
    done
}

install_all() {
    for program in $programs; do
        if [ ! -f "$BIN/$program" ] || [ ! -x "$BIN/$program" ]; then
            echo "${BIN#"$here/"}/$program is missing: run make first" >&2
            exit 1
        fi
    done
    if [ -f "$here/SHA256SUMS" ] && command -v sha256sum > /dev/null; then
        (cd "$here" && sha256sum -c SHA256SUMS > /dev/null) || { echo "SHA256SUMS doesn't fit these files" >&2; exit 1; }
    fi
    mkdir -p "$DESTDIR/"
    # The list stands in DOCDIR, which is made with it: so its first lines wait beside the programs' directory.
    docs_list=$list
    list=$(mktemp) && : > "$list.new"
    make_directory "$DOCDIR"
    for program in $programs; do put 755 "$BIN/$program" "$BINDIR/$program$suffix"; done
    for page in "$here"/man/*.[1-9]; do
        section=${page##*.} title=$(basename "$page")
        put 644 "$page" "$MANDIR/man$section/${title%.*}$suffix.$section"
    done
    put_all "$DOCDIR" "$here"/README.md "$here"/VERSION "$here"/CHANGELOG.md "$here"/PROOF "$here"/SBOM.spdx.json
    put_all "$DOCDIR/docs" "$here"/docs/*
    put_all "$DOCDIR/examples" "$here"/examples/*
    for shell in bash zsh fish; do
        if [ -n "$suffix" ] || [ ! -d "$here/completions/$shell" ]; then continue; fi
        case $shell in
            bash) place=$SHAREDIR/bash-completion/completions ;;
            zsh) place=$SHAREDIR/zsh/site-functions ;;
            fish) place=$SHAREDIR/fish/vendor_completions.d ;;
        esac
        put_all "$place" "$here/completions/$shell"/*
    done
    if [ -f "$docs_list" ]; then
        remove_listed "$docs_list" "$list.new"
        # A directory that an earlier installation made is still ours.
        grep '^directory ' "$docs_list" | cat - "$list.new" > "$list"
        mv -f "$list" "$list.new"
    fi
    sort -u "$list.new" > "$docs_list"
    chmod 644 "$docs_list"
    rm -f "$list" "$list.new"
}

uninstall_all() {
    if [ ! -f "$list" ]; then
        echo "$list is missing: nothing is installed there" >&2
        exit 1
    fi
    kept=$(mktemp)
    cp "$list" "$kept"
    remove_listed "$kept"
    rm -f "$list"
    sort "$kept" | remove_directories
    rm -f "$kept"
}

umask 022
if [ "$task" = install ]; then install_all; else uninstall_all; fi
