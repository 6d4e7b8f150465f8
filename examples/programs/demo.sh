#!/bin/sh
# Runs the programs in four ways: as sets; merged, by wdyl; merged, by node, where node is there, with wasi.mjs and with node's own
# WASI. Each has to put out what stands in expected/, into a file, and to end with the status that is wanted. Where cc and c++ are
# there, they build the sources for this machine, and what that puts out has to be the same. Where clang and wasm-ld are there, the
# modules are built again, and these are run in the same ways. CLANG and WASM_LD name other tools.
#
#     sh examples/programs/demo.sh bin/wdyl
set -eu

wdyl=$1
source=$(dirname "$0")
clang=${CLANG:-clang} linker=${WASM_LD:-wasm-ld}
work=$(mktemp -d)
trap 'rm -rf "$work"' EXIT

# What is long is made here.
cp -R "$source/expected" "$work/expected"
seq 20000 >"$work/expected/numbers.txt"
{ seq 62; seq 63 90 | sed 's/$/, behind the input/'; } >"$work/expected/growing.txt"

has() {
    for tool in "$@"; do
        command -v "$tool" >/dev/null || { echo "$tool is missing"; return 1; }
    done
}

# Runs a command on the input. It has to put out what is expected, and to end with the wanted status.
ran() {
    way=$1
    shift
    code=0
    "$@" <"$source/input.txt" >"$work/output" || code=$?
    cmp "$work/output" "$work/expected/$expected.txt" || { echo "$expected, $way: this was put out:"; cat "$work/output"; exit 1; }
    [ $code -eq "$status" ] || { echo "$expected, $way: status $code, and $status is wanted"; exit 1; }
}

same() {
    ran "$@"
    echo "$way: the same"
}

# A program: what it has to put out, the wanted status, its main module, options of the set, and then its arguments.
program() {
    expected=$1 status=$2 main=$3 options=$4
    shift 4
    echo "== $main${*:+ $*}"
    if [ "$is_native" = yes ] && [ -x "$work/native/$main" ]; then
        same native env LD_LIBRARY_PATH="$work/native" "$work/native/$main" "$@"
    fi
    same run "$wdyl" run $options "$modules/$main.wasm" -- "$@"
    "$wdyl" merge $options "$modules/$main.wasm" "$work/merged.wasm"
    same exec "$wdyl" exec "$work/merged.wasm" -- "$@"
    if [ "$has_node" = yes ]; then
        same node node "$source/wasi.mjs" "$work/merged.wasm" "$@"
        # node's own has other errors, and another status where a module traps
        [ "$status" -eq 134 ] || [ "$main" = errors ] ||
            same "node, its own WASI" node --no-warnings "$source/../../compare/node_wasi.mjs" "$work/merged.wasm" "$@"
    fi
}

programs() {
    program checksums 0 checksums ""
    program timetable 0 timetable ""
    program count 0 count "" -l -w -c
    program count-refused 2 count "" colour
    program filters 0 filters "--dl libupper.so,librot13.so" libupper.so librot13.so libnone.so librot13.so
    program errors 0 errors ""
    program numbers 0 numbers ""
    program blocks 0 blocks ""
    program growing 0 growing "--pages 2048"
    program visits 2 visits "" Ada Ben
    program shapes 0 shapes ""
    program words 4 words "" one "two words" "" three
    program huge 134 huge ""
}

# A memory that grows between calls of WASI, many times over.
grown() {
    expected=growing status=0
    "$wdyl" merge --pages 2048 "$modules/growing.wasm" "$work/merged.wasm"
    echo "== growing, 50 times"
    for n in $(seq 50); do ran "node, run $n" node "$source/wasi.mjs" "$work/merged.wasm"; done
    echo "node: the same each time"
}

native() {
    mkdir "$work/native"
    cc -O1 -o "$work/native/checksums" "$source/checksums.c" "$source/crc.c" "$source/adler.c" "$source/report.c" "$source/io.c"
    cc -O1 -o "$work/native/timetable" "$source/timetable.c" "$source/lines.c" "$source/city.c" "$source/io.c"
    cc -O1 -o "$work/native/count" "$source/count.c" "$source/io.c"
    cc -O1 -o "$work/native/filters" "$source/filters.c" "$source/io.c" -ldl
    for name in numbers blocks growing; do
        cc -O1 -o "$work/native/$name" "$source/$name.c" "$source/io.c"
    done
    for name in upper rot13; do
        cc -O1 -shared -fPIC -o "$work/native/lib$name.so" "$source/$name.c" "$source/letters.c"
    done
    cc -O1 -fPIC -c "$source/io.c" -o "$work/native/io.o"
    c++ -O1 -shared -fPIC -o "$work/native/libsquare.so" "$source/square.cpp" "$work/native/io.o"
    c++ -O1 -o "$work/native/shapes" "$source/shapes.cpp" "$work/native/libsquare.so" "$work/native/io.o"
    cc -O1 -shared -fPIC -o "$work/native/libdoor.so" "$source/door.c" "$work/native/io.o"
    cc -O1 -o "$work/native/visits" "$source/visits.c" "$work/native/libdoor.so" "$work/native/io.o"
    for name in words huge; do
        c++ -O1 -o "$work/native/$name" "$source/$name.cpp" "$work/native/io.o"
    done
}

has_node=no is_native=no
if has node; then has_node=yes; else echo "the merged programs are run by wdyl alone"; fi
if has cc c++; then native; is_native=yes; else echo "the sources aren't built for this machine"; fi

echo "-- the modules of the repository"
modules=$source/modules
programs
[ "$has_node" = no ] || grown

is_native=no
echo "-- the same, built with -mextended-const"
modules=$source/extended
programs

if has "$clang" "$linker"; then
    echo "-- modules built by $("$clang" --version | head -n 1) and $("$linker" --version)"
    sh "$source/build.sh" "$work/built"
    modules=$work/built
    programs
    if "$clang" --target=wasm32 -mextended-const -x c -c /dev/null -o "$work/empty.o" 2>/dev/null; then
        echo "-- and with -mextended-const"
        sh "$source/build.sh" "$work/built-extended" -mextended-const
        modules=$work/built-extended
        programs
    else
        echo "$clang doesn't know -mextended-const"
    fi
else
    echo "the modules aren't built again"
fi
