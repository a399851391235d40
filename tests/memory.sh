#!/usr/bin/env bash
# Want of memory at each place where the program asks for some, in a run under a lock file, in one that ends in the default
# mailbox, in one with LOCKFILE, and in one with a filter and a capture: no lock file is left, the status is 71 or 0, and the
# mailbox has all of the mail or none of it. In one that hands the mail on, with a log file, 71 says that nobody has the mail.
# And in a run of formail with a cache, which has what is new or is as it was.
set -eu
. "$(dirname "$0")/common.bash"
# The allocations of a program with the C library as a shared one can be made to fail: rt's own programs have it so.
for one in procmail formail; do
    if [ -n "${BIN:-}" ] || [ ! -x "$top/crates/${one}_cli/out/${one}_cli" ]; then
        echo "memory: no program of this checkout as rt links it: skipped"
        exit 0
    fi
done
program=$top/crates/procmail_cli/out/procmail_cli
compiler=$(command -v cc || command -v gcc || command -v clang || true)
cat > failing.c <<'END'
#include <errno.h>
#include <fcntl.h>
#include <stddef.h>
#include <stdlib.h>
#include <unistd.h>

extern void *__libc_malloc(size_t);
extern void *__libc_calloc(size_t, size_t);
extern void *__libc_realloc(void *, size_t);
extern void *__libc_memalign(size_t, size_t);

static long asked, number = -1;
static int later;

/* The allocation with the number FAIL_AT fails, and with FAIL_LATER each later one too; the file FAIL_MARK is made then. */
static int fails(void) {
    if (number < 0) {
        char *text = getenv("FAIL_AT");
        number = text ? atol(text) : 0;
        later = getenv("FAIL_LATER") != NULL;
    }
    asked++;
    if (number == 0 || asked < number || (asked > number && !later))
        return 0;
    if (asked == number)
        close(open(getenv("FAIL_MARK"), O_CREAT | O_WRONLY, 0600));
    errno = ENOMEM;
    return 1;
}

void *malloc(size_t size) { return fails() ? NULL : __libc_malloc(size); }
void *calloc(size_t count, size_t size) { return fails() ? NULL : __libc_calloc(count, size); }
void *realloc(void *old, size_t size) { return fails() ? NULL : __libc_realloc(old, size); }
void *aligned_alloc(size_t align, size_t size) { return fails() ? NULL : __libc_memalign(align, size); }
int posix_memalign(void **out, size_t align, size_t size) {
    if (fails())
        return ENOMEM;
    *out = __libc_memalign(align, size);
    return *out ? 0 : ENOMEM;
}
END
if [ -z "$compiler" ] || ! "$compiler" -shared -fPIC -o failing.so failing.c 2> /dev/null; then
    echo "memory: no C compiler here: skipped"
    exit 0
fi
export FAIL_MARK=$folder/mark
printf 'From a@b Thu Jan  1 00:00:00 1970\nA: b\n\nhi\n' > message
printf 'From a@b Thu Jan  1 00:00:00 1970\nA: b\n\nhi\n\n' > piece
printf 'old mail\n\n' > old
cat old piece > both

logname=joe

# Runs with these words, once for each allocation; the mailbox is mbox.
each() {
    about=$1
    shift
    for later in '' yes; do
        number=0
        failed=0
        while :; do
            number=$((number + 1))
            rm -f mark
            cp old mbox
            status=0
            env -i LOGNAME="$logname" HOME="$folder" FAIL_MARK="$FAIL_MARK" FAIL_AT=$number ${later:+FAIL_LATER=yes} LD_PRELOAD="$folder/failing.so" \
                "$program" "$@" < message 2> said || status=$?
            for lock in *.lock; do
                [ ! -e "$lock" ] || fail "$about: allocation $number: the lock file $lock is left"
            done
            if cmp -s mbox both; then
                [ "$status" -eq 0 ] || [ "$status" -eq 71 ] || fail "$about: allocation $number: status $status"
            elif cmp -s mbox old; then
                case $status in
                    71 | 66 | 73) ;;
                    *) fail "$about: allocation $number: status $status, and nothing was delivered" ;;
                esac
                failed=$((failed + 1))
            else
                fail "$about: allocation $number: the mailbox is torn"
            fi
            [ -e mark ] || break
            [ "$number" -lt 20000 ] || fail "$about: no end of allocations"
        done
        [ "$status" -eq 0 ] || fail "$about: status $status where none failed"
        [ "$failed" -gt 20 ] || fail "$about: only $failed of $number allocations mattered"
        echo "memory: $about: each of $((number - 1)) allocations${later:+ and all behind it}: no lock file is left, and the mailbox is whole"
    done
}

printf ':0:\nmbox\n' > rc
each "a recipe with a lock file" -m rc
# The default mailbox is /var/mail and this name, so it is the same one, also where the rcfile couldn't be read.
: > default
if [ -d /var/mail ]; then
    logname=../..$folder/mbox
    each "the default mailbox" ./default
    logname=joe
else
    echo "memory: no /var/mail here: skipped"
fi
printf 'LOCKFILE=global.lock\n\n:0:\n* ^A: b\nmbox\n' > global
each "LOCKFILE" -m global
# The programs themselves get all memory.
printf 'LD_PRELOAD=\n:0 fw:filter.lock\n| /bin/cat\n:0 w:capture.lock\nN=| /bin/echo 1\n:0:\nmbox\n' > programs
each "a filter and a capture under lock files" -m programs

# Runs with this rcfile, once for each allocation; the mail is handed on to the file got. A mail server tries a mail again
# after 71, so got is empty then.
handed() {
    about=$1
    for later in '' yes; do
        number=0
        failed=0
        while :; do
            number=$((number + 1))
            rm -f mark
            : > got
            status=0
            env -i LOGNAME=joe HOME="$folder" FAIL_MARK="$FAIL_MARK" FAIL_AT=$number ${later:+FAIL_LATER=yes} LD_PRELOAD="$folder/failing.so" \
                "$program" -m "$2" < message >> got 2> said || status=$?
            for lock in *.lock; do
                [ ! -e "$lock" ] || fail "$about: allocation $number: the lock file $lock is left"
            done
            if [ -s got ]; then
                [ "$status" -eq 0 ] || fail "$about: allocation $number: status $status, and the mail was handed on"
                cmp -s got message || fail "$about: allocation $number: status 0, and another mail was handed on"
            else
                case $status in
                    71 | 66 | 73) ;;
                    *) fail "$about: allocation $number: status $status, and nothing was handed on" ;;
                esac
                failed=$((failed + 1))
            fi
            [ -e mark ] || break
            [ "$number" -lt 20000 ] || fail "$about: no end of allocations"
        done
        [ "$status" -eq 0 ] || fail "$about: status $status where none failed"
        [ "$failed" -gt 20 ] || fail "$about: only $failed of $number allocations mattered"
        echo "memory: $about: each of $((number - 1)) allocations${later:+ and all behind it}: no mail that was handed on ended with 71"
    done
}

# The programs themselves get all memory.
printf 'LD_PRELOAD=\nLOGFILE=log\n' > first
printf '#!/bin/sh\nexec /bin/cat >> got\n' > takes
chmod +x takes
{ cat first; printf ':0\n|\n'; } > out
handed "standard output" out
{ cat first; printf 'LOCKFILE=global.lock\n:0\n|\n'; } > locked
handed "standard output under LOCKFILE" locked
{ cat first; printf ':0:block.lock\n{\n:0:out.lock\n|\n}\n'; } > inside
handed "standard output in a block with a lock file" inside
{ cat first; printf ':0:pipe.lock\n| ./takes\n'; } > pipe
handed "a pipe under a lock file" pipe
{ cat first; printf 'SENDMAIL=./takes\nSENDMAILFLAGS\n:0\n! joe@example.org\n'; } > forward
handed "a forward" forward
{ cat first; printf ':0 fw\n| /bin/cat\n:0\n|\n'; } > filtered
handed "standard output after a filter" filtered

# Runs formail with a cache, once for each allocation: with status 1 what is new was added, and with 71 nothing was. A call
# of the system for which memory is wanting is one that fails: 74.
printf 'A: b\nMessage-ID: <b@x>\n\nhi\n' > mail
printf '<a@x>\n' > seen
printf '<a@x>\n<b@x>\n' > added
program=$top/crates/formail_cli/out/formail_cli
for later in '' yes; do
    number=0
    failed=0
    while :; do
        number=$((number + 1))
        rm -f mark
        cp seen cache
        status=0
        env -i FAIL_MARK="$FAIL_MARK" FAIL_AT=$number ${later:+FAIL_LATER=yes} LD_PRELOAD="$folder/failing.so" \
            "$program" -D 8192 cache < mail > said 2>&1 || status=$?
        [ ! -e cache.lock ] || fail "a cache: allocation $number: the lock file is left"
        [ ! -s said ] || fail "a cache: allocation $number: something was written"
        case $status in
            1) cmp -s cache added || fail "a cache: allocation $number: status 1, and the cache hasn't what is new" ;;
            71) cmp -s cache seen || fail "a cache: allocation $number: status 71, and the cache isn't as it was" ;;
            74) cmp -s cache seen || cmp -s cache added || fail "a cache: allocation $number: status 74, and the cache is torn" ;;
            *) fail "a cache: allocation $number: status $status" ;;
        esac
        [ "$status" -eq 1 ] || failed=$((failed + 1))
        [ -e mark ] || break
        [ "$number" -lt 20000 ] || fail "a cache: no end of allocations"
    done
    [ "$status" -eq 1 ] || fail "a cache: status $status where none failed"
    [ "$failed" -gt 5 ] || fail "a cache: only $failed of $number allocations mattered"
    echo "memory: a cache of formail: each of $((number - 1)) allocations${later:+ and all behind it}: no lock file is left, and the cache is whole"
done
echo "memory: passed"
