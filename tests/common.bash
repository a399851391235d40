# What the scripts of this directory share: the built programs, a fresh directory in which they run, and how they fail.
# BIN names the directory of the programs, bin/ if it isn't set. ARE_BUILT=yes keeps them from being built before.
name=$(basename "$0" .sh)
programs=${BIN:+$(cd "$BIN" && pwd)}
cd "$(dirname "$0")/.."
top=$PWD
if [ -z "$programs" ] && [ "${ARE_BUILT:-}" != yes ]; then
    echo "$name: make build proves and builds the programs first, an hour's work where nothing is built yet;" \
        "BIN=DIRECTORY or ARE_BUILT=yes takes those that are there" >&2
    make -s build > /dev/null
fi
programs=${programs:-$top/bin}
program=$programs/procmail
folder=$(mktemp -d)
trap 'rm -rf "$folder"' EXIT
cd "$folder"

fail() {
    echo "$name: $1" >&2
    exit 1
}
