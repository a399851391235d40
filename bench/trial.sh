#!/usr/bin/env bash
# What a trial costs: 200 and 2,000 messages by one trial each, and the same 2,000 messages by single deliveries; the
# seconds of a processor, for the user and for the system, and the most memory. It isn't part of the check.
set -eu
cd "$(dirname "$0")/.."
[ -n "${BIN:-}" ] || [ -x bin/procmail ] || make -s build > /dev/null
program=$(cd "${BIN:-bin}" && pwd)/procmail
rc=$PWD/crates/procmail_cli/data/rc
[ -x /usr/bin/time ] || { echo "time(1) isn't there"; exit 0; }
folder=$(mktemp -d)
trap 'rm -rf "$folder"' EXIT
cd "$folder"

# A line for what was done in a directory of its own: `row LABEL COMMAND..`
row() {
    local label=$1
    shift
    mkdir run
    cp "$rc" run/rc
    (cd run && /usr/bin/time -f '%U %S %M' -o "$folder/cost" "$@" > "$folder/said")
    awk -v label="$label" '{
        printf "%-28s %6.2f s of a processor (user %s, system %s), %s KiB at most\n", label, $1 + $2, $1, $2, $3
    }' cost
    rm -r run
}

mkdir mail
awk 'BEGIN {
    for (k = 0; k < 2000; k++) {
        printf "From t Thu Jan  1 00:00:00 1970\nTo: l%d@x\nSubject: %d\n\n", k % 5, k > ("mail/" k)
        for (line = 0; line < k % 4; line++) printf "line\n" > ("mail/" k)
        close("mail/" k)
    }
}'
cat > single <<'END'
#!/usr/bin/env bash
for ((k = 0; k < 2000; k++)); do "$1" -m rc < "$2/$k"; done
END

row "200 by one trial" "$program" --trial 200
row "2,000 by one trial" "$program" --trial 2000
cat said
row "2,000 by single deliveries" bash "$folder/single" "$program" "$folder/mail"
