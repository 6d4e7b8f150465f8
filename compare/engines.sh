#!/bin/sh
# Runs the merged examples in the shells of three engines: V8 in node, JavaScriptCore in jsc, SpiderMonkey in gjs. Each has to put out what
# `wdyl exec` does, and to end with the same status. An engine that is missing is named and left out.
#
#     sh compare/engines.sh bin/wdyl
#
# Debian has them in the packages nodejs, libjavascriptcoregtk-4.0-bin and gjs. NODE, JSC and GJS name other commands.
set -eu

wdyl=$1
here=$(dirname "$0")
examples=$here/../examples
programs=$examples/programs
work=$(mktemp -d)
trap 'rm -rf "$work"' EXIT
node=${NODE:-node} jsc=${JSC:-jsc} gjs=${GJS:-gjs}

by_engine() {
    engine=$1
    shift
    case $engine in
    V8) "$node" "$here/engine.mjs" "$@" ;;
    JavaScriptCore) "$jsc" "$here/engine.mjs" -- "$@" ;;
    SpiderMonkey) "$gjs" -m "$here/engine.mjs" -- "$@" ;;
    esac
}

engines=
for pair in "V8 $node" "JavaScriptCore $jsc" "SpiderMonkey $gjs"; do
    if command -v "${pair#* }" >/dev/null; then
        engines="$engines ${pair%% *}"
    else
        echo "${pair#* } is missing: nothing is run by ${pair%% *}"
    fi
done

# A set: its name, its main module, options, and the arguments of its run.
merged() {
    name=$1 main=$2 options=$3 merged=$work/merged.wasm code=0
    shift 3
    "$wdyl" merge $options "$main" "$merged"
    "$wdyl" exec "$merged" -- "$@" <"$programs/input.txt" >"$work/expected" 2>/dev/null || code=$?
    echo "status: $code" >>"$work/expected"
    for engine in $engines; do
        by_engine "$engine" "$merged" "$programs/input.txt" "$@" >"$work/output" || echo "the shell ended with status $?" >>"$work/output"
        cmp "$work/output" "$work/expected" || { echo "$name, by $engine: this was put out:"; cat "$work/output"; exit 1; }
    done
    echo "$name${*:+ $*}: the same by wdyl$engines"
}

for name in smallest calls trap recursion diamond; do
    merged "$name" "$examples/$name/main.wasm" ""
done
for modules in modules extended; do
    echo "-- the programs of $modules"
    for name in checksums timetable numbers blocks shapes; do
        merged "$name" "$programs/$modules/$name.wasm" ""
    done
    merged count "$programs/$modules/count.wasm" "" -l -w -c
    merged count "$programs/$modules/count.wasm" "" colour
    merged visits "$programs/$modules/visits.wasm" "" Ada Ben
    merged words "$programs/$modules/words.wasm" "" one "two words" "" three
    merged growing "$programs/$modules/growing.wasm" "--pages 2048"
    merged filters "$programs/$modules/filters.wasm" "--dl libupper.so,librot13.so" libupper.so librot13.so libnone.so librot13.so
done
