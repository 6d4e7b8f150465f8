#!/bin/sh
# Builds the program without a proof, by `rt try`, and shows that it works: a set is generated, linked, merged and run; another is listed,
# run and merged, and what was merged is run, by node too where node is there. What each command prints has to be what is expected.
#
#     sh tools/try.sh
#
# Nothing is proved here, and the program that is run is slow, since it is built with checks of each access and sum. It isn't kept.
set -eu

top=$(cd "$(dirname "$0")/.." && pwd)
diamond=$top/examples/diamond
work=$(mktemp -d)
trap 'rm -rf "$work"' EXIT
cases=$work/cases merged=$work/merged.wasm
mkdir "$cases"

# A command, with a number for its place and the file of what it has to print.
command_of() {
    name=$1 expected=$2
    shift 2
    : >"$cases/$name"
    printf '%s\n' "$@" >"$cases/$name.args"
    cp "$expected" "$cases/$name.stdout"
}

# as README.md shows it
awk '/^\$ wdyl gen 40$/ { found = 1; next } /^```$/ { found = 0 } found' "$top/README.md" >"$work/generated"
command_of 1 "$work/generated" gen 40
command_of 2 "$diamond/plan.txt" plan main.wasm
command_of 3 "$diamond/output.txt" run main.wasm
command_of 4 /dev/null merge main.wasm "$merged"
command_of 5 "$diamond/output.txt" exec "$merged"

echo "The program is built without a proof, and slow. This takes some two minutes."
cd "$top/crates/wdyl"
set --
for file in main.wasm liba.so libb.so libsay.so; do set -- "$@" --data "$file=$diamond/$file"; done
rt try --cases "$cases" "$@" >"$work/log" 2>&1 || true
for name in 1 2 3 4 5; do
    echo "$ wdyl $(paste -sd ' ' "$cases/$name.args" | sed "s|$work/||")"
    if ! grep -q "^case=$name run=ended status=0 .*output=expected" "$work/log"; then
        cat "$work/log"
        exit 1
    fi
    cat "$cases/$name.stdout"
done
if command -v node >/dev/null; then
    echo "$ node examples/run.mjs merged.wasm"
    node "$top/examples/run.mjs" "$merged" "$work/output"
    cmp "$work/output" "$diamond/output.txt"
fi
echo "All of this was unproved and slow. \`make\` proves the program and builds it, \`make demo\` runs all examples."
