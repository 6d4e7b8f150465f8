#!/bin/sh
# Builds a set with clang and wasm-ld, where they are there, and lists, runs and merges it.
#
#     sh examples/greetings.sh bin/wdyl
#
# The main module needs libenglish.so and libgerman.so, and both need libsay.so. The target of emscripten is the one for which each
# version of clang from 14 on makes position-independent code. wasm-ld makes main modules import their memory and table, and export
# what is visible, where it is told to.
set -eu

wdyl=$1
source=$(dirname "$0")/greetings
for tool in clang wasm-ld; do
    if ! command -v $tool >/dev/null; then
        echo "$tool is missing: the set of C programs isn't built"
        exit 0
    fi
done
work=$(mktemp -d)
trap 'rm -rf "$work"' EXIT

for name in say english german main; do
    clang --target=wasm32-unknown-emscripten -O1 -fPIC -fvisibility=default -ffreestanding -mbulk-memory -mmutable-globals \
        -c "$source/$name.c" -o "$work/$name.o"
done
library() {
    name=$1
    shift
    wasm-ld --experimental-pic -shared "$work/$name.o" "$@" -o "$work/lib$name.so"
}
library say
library english "$work/libsay.so"
library german "$work/libsay.so"
wasm-ld --experimental-pic -pie --import-memory --import-table --export-dynamic \
    "$work/main.o" "$work/libenglish.so" "$work/libgerman.so" "$work/libsay.so" -o "$work/main.wasm"

echo "== greetings, by $(wasm-ld --version)"
printf 'Hello\nHallo\nGuten Tag\n3 texts\n' >"$work/expected"
echo "wdyl plan main.wasm"
"$wdyl" plan "$work/main.wasm"
echo "wdyl run main.wasm"
"$wdyl" run "$work/main.wasm" >"$work/run"
cat "$work/run"
cmp "$work/run" "$work/expected"
"$wdyl" merge "$work/main.wasm" "$work/merged.wasm"
echo "wdyl merge main.wasm merged.wasm: read $(cat "$work/main.wasm" "$work"/*.so | wc -c) bytes, written $(wc -c <"$work/merged.wasm") bytes"
echo "wdyl exec merged.wasm"
"$wdyl" exec "$work/merged.wasm" >"$work/exec"
cat "$work/exec"
cmp "$work/exec" "$work/expected"
