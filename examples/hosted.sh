#!/bin/sh
# Builds a set with a C library, wasi-libc, and runs it in five ways: as a set; merged, by wdyl; merged, by node, with wasi.mjs and with
# node's own WASI, and by Chromium. Each has to put out, into a file, what stands in hosted/expected, and to end with the status that is wanted. Where cc
# is there, it builds the sources for this machine, and what that puts out has to be the same.
#
#     sh examples/hosted.sh bin/wdyl
#
# WASI_LIBC_SOURCE is a folder with the sources of wasi-libc, which are built so that the library is position independent; or WASI_LIBC
# is a folder with what that made. CLANG, WASM_LD, LLVM_AR and LLVM_NM name other tools than `clang`, `wasm-ld`, `llvm-ar` and `llvm-nm`.
set -eu

wdyl=$(cd "$(dirname "$1")" && pwd)/$(basename "$1")
top=$(cd "$(dirname "$0")" && pwd)
source=$top/hosted programs=$top/programs
clang=${CLANG:-clang} linker=${WASM_LD:-wasm-ld} archiver=${LLVM_AR:-llvm-ar} lister=${LLVM_NM:-llvm-nm}
work=$(mktemp -d)
trap 'rm -rf "$work"' EXIT
cd "$work"

skipped() {
    echo "$1: the set with a C library isn't built"
    exit 0
}

for tool in "$clang" "$linker" "$archiver" "$lister" make; do
    command -v "$tool" >/dev/null || skipped "$tool is missing"
done
[ -n "${WASI_LIBC_SOURCE:-}${WASI_LIBC:-}" ] || skipped "neither WASI_LIBC_SOURCE nor WASI_LIBC names a folder"

echo 'int here; int *there(void) { return &here; }' >try.c
"$clang" -Wno-deprecated --target=wasm32-wasi -fPIC -fvisibility=default -c try.c -o try.o 2>/dev/null &&
    "$linker" --experimental-pic -shared --unresolved-symbols=import-dynamic try.o -o try.so 2>/dev/null ||
    skipped "$("$clang" --version | head -n 1) makes no position-independent code for wasm32-wasi"

libc=${WASI_LIBC:-$work/libc}
if [ -z "${WASI_LIBC:-}" ]; then
    make -C "$WASI_LIBC_SOURCE" CC="$clang -Wno-deprecated" AR="$archiver" NM="$lister" OBJDIR="$work/built" SYSROOT="$libc" \
        EXTRA_CFLAGS='-O2 -DNDEBUG -fPIC -w' startup_files libc >libc.log 2>&1 || { tail libc.log; exit 1; }
fi

"$clang" -Wno-deprecated --target=wasm32-wasi --sysroot="$libc" -O2 -fPIC -fvisibility=default \
    -c "$source"/*.c "$programs/start_wasi.c"
"$archiver" rc libchairs.a chairs.o
archives="-L$libc/lib/wasm32-wasi -lc-printscan-no-floating-point -lc"
"$linker" --experimental-pic -shared --allow-undefined greeting.o -o libgreeting.so
"$lister" -u greeting.o | sed -n 's/.* U /--export=/p' | grep -v -x -e '--export=__\(memory_base\|table_base\|stack_pointer\)' \
    -e '--export=__\(indirect_function_table\|dso_handle\)' >exports
"$linker" --experimental-pic -pie --import-memory --export-dynamic --allow-undefined @exports start_wasi.o party.o libgreeting.so \
    libchairs.a $archives -o party.wasm
"$wdyl" merge party.wasm merged.wasm

is_native=no has_node=no
if command -v cc >/dev/null; then
    is_native=yes
    mkdir native
    cc -O1 -shared -fPIC "$source/greeting.c" -o native/libgreeting.so
    cc -O1 "$source/party.c" "$source/chairs.c" native/libgreeting.so -o native/party
else
    echo "cc is missing: the sources aren't built for this machine"
fi
has_python=no
! command -v python3 >/dev/null || has_python=yes
if command -v node >/dev/null; then has_node=yes; else echo "node is missing: the merged program is run by wdyl alone"; fi

# Runs a command on the input. It has to put out what is expected, and to end with the wanted status.
same() {
    way=$1
    shift
    code=0
    "$@" <"$input" >output || code=$?
    cmp output "$source/expected/$expected.txt" || { echo "$expected, $way: this was put out:"; cat output; exit 1; }
    [ $code -eq "$status" ] || { echo "$expected, $way: status $code, and $status is wanted"; exit 1; }
    echo "$way: the same"
}

party() {
    expected=$1 status=$2 input=$3
    shift 3
    echo "== party $*"
    [ $is_native = no ] || same native env LD_LIBRARY_PATH=native native/party "$@"
    same run "$wdyl" run party.wasm "$@"
    same exec "$wdyl" exec merged.wasm "$@"
    if [ $has_node = yes ]; then
        same node node "$programs/wasi.mjs" merged.wasm "$@"
        same "node, its own WASI" node --no-warnings "$top/../compare/node_wasi.mjs" merged.wasm "$@"
    fi
    [ $has_python = no ] || python3 "$top/web/test.py" --merged merged.wasm "$input" "$source/expected/$expected.txt" "$status" "$@"
}

echo "-- a set with a C library, by $("$clang" --version | head -n 1) and $("$linker" --version)"
party two 0 "$programs/input.txt" Ada Ben
party three 1 /dev/null Ada Ben Cid
party nobody 3 /dev/null Ada nobody

# Nothing is told of the one copy of the library, but of two: the second is that of a library that is linked with it.
"$wdyl" plan party.wasm | sh "$programs/check-plan" >told
! grep __heap_base told || { cat told; exit 1; }
"$linker" --experimental-pic -shared --allow-undefined greeting.o $archives -o libgreeting.so
"$linker" --experimental-pic -pie --import-memory --export-dynamic --allow-undefined start_wasi.o party.o libgreeting.so libchairs.a \
    $archives -o twice.wasm
code=0
"$wdyl" plan twice.wasm | sh "$programs/check-plan" >told || code=$?
[ $code -eq 1 ] && grep -q __heap_base told || { echo "two copies of the library, and status $code:"; cat told; exit 1; }
echo "two copies of the library: check-plan tells of them"
