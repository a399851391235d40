# What the scripts with mail servers share. Such a script needs root and the server's commands, or it skips itself. It
# runs in namespaces of its own: no network but the loopback, no process that outlives it, and a user, a host name and
# mounts that the machine doesn't see. So nothing of the machine is changed, and no mail leaves it.
name=$(basename "$0" .sh)
self=$(readlink -f "$0")
PATH=$PATH:/usr/sbin:/sbin

skip() {
    echo "$name: $1: skipped"
    exit 0
}

# go_apart COMMAND..: starts the script again in the namespaces, once these commands are there and the programs built.
go_apart() {
    [ "${IS_APART:-}" != yes ] || return 0
    [ "$(id -u)" -eq 0 ] || skip "this isn't root"
    for command; do
        command -v "$command" > /dev/null || skip "$command isn't installed"
    done
    unshare --mount --net --uts --pid --fork --kill-child --mount-proc true 2> /dev/null ||
        skip "no namespaces can be made here"
    [ "${ARE_BUILT:-}" = yes ] || make -s -C "${self%/tests/*}" build > /dev/null
    IS_APART=yes ARE_BUILT=yes exec timeout -k 10 300 \
        unshare --mount --net --uts --pid --fork --kill-child --mount-proc bash "$self"
}

# make_user: the user $user with the home directory $home and an rcfile that logs as whom it runs.
user=pmtest
user_id=61357
make_user() {
    home=$folder/home
    [ -z "$(getent passwd "$user" "$user_id")" ] || skip "this machine has a user $user or $user_id"
    chmod 755 "$folder"
    mkdir "$folder/bin" "$home"
    cp "$programs/procmail" "$programs/formail" "$folder/bin/"
    cp /etc/passwd passwd
    echo "$user:x:$user_id:$user_id::$home:/bin/sh" >> passwd
    cp /etc/group group
    echo "$user:x:$user_id:" >> group
    printf '127.0.0.1 localhost mail.test.invalid\n' > hosts
    for one in passwd group hosts; do mount --bind "$one" "/etc/$one"; done
    mount -t tmpfs tmpfs /run
    mount -t tmpfs -o mode=2775,gid=mail tmpfs /var/mail
    echo mail.test.invalid > /proc/sys/kernel/hostname
    ip link set lo up 2> /dev/null || skip "the loopback can't be started"
    write_rcfile
    chown -R "$user:$user" "$home"
}
write_rcfile() {
    cat > "$home/.procmailrc" << 'RC'
PATH=/usr/bin:/bin
LOGFILE=$HOME/log

:0
* ^Subject: program
| { id -un; id -gn; echo "$HOME $LOGNAME"; cat > /dev/null; } > "$HOME/who"

:0
* ^Subject: refused
{
    EXITCODE=67

    :0
    /dev/null
}

:0
* ^Subject: full
{
    DEFAULT=/no/such/mailbox
    ORGMAIL
}
RC
}

# as_user COMMAND..: runs it as the user, with the user's environment and nothing else.
as_user() {
    setpriv --reuid "$user" --regid "$user" --clear-groups env -i HOME="$home" LOGNAME="$user" USER="$user" \
        PATH=/usr/bin:/bin "$@"
}

# block SECTION NUMBER [PAGE]: a block of code of this section of the page, with the path of the built program.
block() {
    awk -v section="## $1" -v number="$2" '
        /^## / { inside = ($0 == section); count = 0; next }
        inside && /^```/ { open = !open; count += open; next }
        inside && open && count == number' "${self%/tests/*}/docs/${3:-SERVERS.md}" |
        sed "s,/usr/local/bin/procmail,$folder/bin/procmail,g" > block
    [ -s block ] || fail "the page has no block $2 in its section $1"
    cat block
}

# within SECONDS COMMAND..: tries the command until it succeeds.
within() {
    local end=$((SECONDS + $1))
    until "${@:2}"; do
        [ "$SECONDS" -lt "$end" ] || return 1
        sleep 0.2
    done
}

# has FILE COUNT: so many mails are in this mailbox, and the file is the user's alone.
has() {
    [ "$(grep -c '^From ' "$1" 2> /dev/null)" = "$2" ] && is_users "$1"
}
is_users() {
    [ "$(stat -c '%U %a' "$1" 2> /dev/null)" = "$user 600" ]
}
# ran_as_user: the program of the rcfile ran as the user, with the user's group, HOME and LOGNAME.
ran_as_user() {
    printf '%s\n%s\n%s %s\n' "$user" "$user" "$home" "$user" | cmp -s - "$home/who"
}
# all_users: nothing in the home directory belongs to somebody else.
all_users() {
    [ -z "$(find "$home" ! -user "$user" -o ! -group "$user")" ]
}
wrong() {
    fail "$1: $(
        ls -lR "$home" /var/mail
        tail -n 5 "$home/log" 2> /dev/null
        tail -n 15 "$folder/maillog" 2> /dev/null
    )"
}

# forward_line SERVER: the line for `.forward` of this server in the page, for the test's user.
forward_line() {
    sed -n "s/^| $1 | \`\(.*\)\` |\$/\1/p" "${self%/tests/*}/docs/WITHOUT_A_SERVER.md" |
        sed "s,\\\\|,|,g; s,/usr/local/bin/procmail,$folder/bin/procmail,; s,/home/joe,$home,; s,=joe,=$user," > forward
    [ -s forward ] || fail "the page has no line for .forward of $1"
    cat forward
}
