#!/bin/sh
# Builds zlib, lz4 and bzip2 by wdyl-cc, each with a program of examples/unchanged, and runs these natively, as sets, and merged, by wdyl
# and by node. What they put out goes to files, and has to be the same.
#
#     sh examples/unchanged.sh bin/wdyl [SOURCES]
#
# SOURCES, else PACK_SOURCES, is a folder in which `apt-get source zlib lz4 bzip2` was called. A C library is taken from WDYL_LIBC, or is
# made of WASI_LIBC_SOURCE by wdyl-libc. CLANG and WASM_LD name other tools than `clang` and `wasm-ld`. What is missing is said.
set -eu

wdyl=$(cd "$(dirname "$1")" && pwd)/$(basename "$1")
top=$(cd "$(dirname "$0")/.." && pwd)
sources=${2:-${PACK_SOURCES:-}}
programs=$top/examples/unchanged
PATH=$top/tools:$PATH
work=$(mktemp -d)
trap 'rm -rf "$work"' EXIT

leave() {
    echo "$*: zlib, lz4 and bzip2 aren't built"
    exit 0
}

[ -n "$sources" ] || leave "PACK_SOURCES isn't set"
sources=$(cd "$sources" && pwd)
for tool in "${CLANG:-clang}" "${WASM_LD:-wasm-ld}" cc make; do command -v "$tool" >/dev/null || leave "$tool is missing"; done
if [ ! -e "${WDYL_LIBC:-}/libc.so" ]; then
    [ -n "${WASI_LIBC_SOURCE:-}" ] && [ -e "$top/tools/wdyl-libc" ] || leave "there is no C library, in WDYL_LIBC, and WASI_LIBC_SOURCE isn't set"
    python3 "$top/tools/wdyl-libc" "$WASI_LIBC_SOURCE" "$work/libc"
    export WDYL_LIBC="$work/libc"
fi
llvm=$("${CLANG:-clang}" -print-prog-name=llvm-ar)
command -v "$llvm" >/dev/null || leave "llvm-ar is missing"

has_node=no
if command -v node >/dev/null; then has_node=yes; else echo "node is missing: what was merged is run by wdyl alone"; fi

# Runs a command on the input. What it puts out and its status have to be those of the native program.
same() {
    way=$1
    shift
    code=0
    "$@" <"$work/input" >"$work/output" || code=$?
    cmp "$work/output" "$work/native.txt" || { echo "$name, $way: this was put out:"; cat "$work/output"; exit 1; }
    [ $code -eq $status ] || { echo "$name, $way: status $code, and natively $status"; exit 1; }
    echo "$name, $way: the same"
}

# A library: its name, the folder of its headers and of its library, and its sources for the native program.
program() {
    name=$1 headers=$2
    shift 2
    cc -O1 -w -DBZ_NO_STDIO -I"$headers" "$programs/$name.c" "$@" -o "$work/native"
    status=0
    "$work/native" <"$work/input" >"$work/native.txt" || status=$?
    wdyl-cc -O2 -w -I"$headers" "$programs/$name.c" -L"$headers" -l"$library" -o "$work/$name.wasm"
    same run "$wdyl" run --path "$headers" "$work/$name.wasm"
    "$wdyl" merge --path "$headers" "$work/$name.wasm" "$work/one.wasm"
    same exec "$wdyl" exec "$work/one.wasm"
    if [ $has_node = yes ]; then same node node --no-warnings "$top/examples/programs/wasi.mjs" "$work/one.wasm"; fi
}

built() {
    "$@" >"$work/log" 2>&1 || { cat "$work/log"; exit 1; }
}

cat "$top"/examples/unchanged/*.c "$top"/examples/*.sh "$top"/examples/diamond/*.wasm >"$work/input"
for name in zlib lz4 bzip2; do
    set -- "$sources/$name"-*/
    [ -d "$1" ] || leave "$sources has no $name"
    cp -R "$1" "$work/$name"
done
echo "-- zlib, lz4 and bzip2, by $("${WASM_LD:-wasm-ld}" --version)"
(cd "$work/zlib" && CC=wdyl-cc AR=$llvm RANLIB="$llvm s" built ./configure && built make libz.so.1.2.13)
library=z
program zlib "$work/zlib" "$work"/zlib/*.c
built make -C "$work/lz4/lib" CC=wdyl-cc AR="$llvm" liblz4
library=lz4
program lz4 "$work/lz4/lib" "$work"/lz4/lib/*.c
(
    cd "$work/bzip2"
    wdyl-cc -O2 -w -DBZ_NO_STDIO -shared blocksort.c huffman.c crctable.c randtable.c compress.c decompress.c bzlib.c -o libbz2.so
)
library=bz2
program bzip2 "$work/bzip2" $(for part in blocksort huffman crctable randtable compress decompress bzlib; do echo "$work/bzip2/$part.c"; done)
