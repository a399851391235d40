#!/usr/bin/env bash
# The pages that are made from the code are what it makes of them now: docs/LAYERS.md with docs/layers.svg, and
# docs/PROMISE_LIST.md and docs/SURFACE.md. And no chain of crates that stand on one another is longer than it may be, since a
# change of its lowest crate proves all of it again.
set -u
name=$(basename "$0" .sh)
cd "$(dirname "$0")/.." || exit 1
made=$(mktemp) || exit 1
trap 'rm -f "$made"' EXIT
stale=0
most=8

# same PAGE TARGET PROGRAM ..: the page is what the program writes, as `make TARGET` does.
same() {
    "${@:3}" > "$made" || { echo "$name: $1 can't be made" >&2; stale=1; return; }
    if ! cmp -s "$1" "$made"; then
        diff "$1" "$made" | cut -c1-200 | head -n 20
        echo "$name: $1 is stale: make $2" >&2
        stale=1
    fi
}

same docs/LAYERS.md layers bash .ci/layers
if python3 -c '' 2> /dev/null; then
    same docs/PROMISE_LIST.md promise python3 .ci/promise_list
    same docs/layers.svg layers python3 .ci/layers_picture
    same docs/SURFACE.md surface python3 .ci/surface
    [ "$(grep -c "^| .*\`fn " docs/SURFACE.md)" -gt 300 ] || { echo "$name: docs/SURFACE.md has hardly any call" >&2; stale=1; }
    python3 .ci/chains "$most" > "$made" || { tail -n 1 "$made" >&2; stale=1; }
else
    echo "$name: no python3 here: docs/PROMISE_LIST.md, docs/SURFACE.md, docs/layers.svg and the chain of crates: skipped"
fi
[ "$stale" -ne 0 ] || echo "$name: passed"
exit "$stale"
