#!/bin/sh
# Merges the examples and runs what was merged: with wdyl, and with node where node is there. A set is listed, run, merged and run
# again, and what is printed has to be the same each time. The exit status is 1 where it isn't.
#
#     sh examples/demo.sh bin/wdyl
set -eu

wdyl=$1
here=$(dirname "$0")
work=$(mktemp -d)
trap 'rm -rf "$work"' EXIT

# Runs a command and prints it, what it puts out and its status. What it puts out is kept in a file.
shown() {
    kept=$1
    shift
    echo "$*"
    code=0
    "$@" >"$kept" || code=$?
    cat "$kept"
    echo "status: $code"
}

same() {
    cmp "$1" "$2" || { echo "these differ: $1, $2"; exit 1; }
}

by_node() {
    if command -v node >/dev/null; then
        node "$here/run.mjs" "$1" "$2"
    else
        echo "node is missing: the merged module isn't run by it"
        cp "$3" "$2"
    fi
}

for example in smallest calls trap; do
    main=$here/$example/main.wasm
    merged=$work/$example.wasm
    echo "== $example"
    shown "$work/merge" "$wdyl" merge "$main" "$merged"
    echo "read: $(wc -c <"$main") bytes, written: $(wc -c <"$merged") bytes"
    shown "$work/exec" "$wdyl" exec "$merged"
    by_node "$merged" "$work/node" "$work/exec"
    same "$work/exec" "$work/node"
    echo
done

echo "== says"
shown "$work/exec" "$wdyl" exec "$here/says/main.wasm"
echo

echo "== diamond"
set=$here/diamond
shown "$work/plan" "$wdyl" plan "$set/main.wasm"
same "$work/plan" "$set/plan.txt"
shown "$work/run" "$wdyl" run "$set/main.wasm"
same "$work/run" "$set/output.txt"
shown "$work/merge" "$wdyl" merge "$set/main.wasm" "$work/diamond.wasm"
echo "read: $(cat "$set/main.wasm" "$set"/*.so | wc -c) bytes, written: $(wc -c <"$work/diamond.wasm") bytes"
shown "$work/exec" "$wdyl" exec "$work/diamond.wasm"
same "$work/exec" "$set/output.txt"
by_node "$work/diamond.wasm" "$work/node" "$work/exec"
same "$work/node" "$set/output.txt"
