#!/bin/sh
# Tries what is made of others' libraries: a C library and a runtime of C++ as members of the set, a packer whose codecs are plug-ins, a
# library in Rust, and one by Emscripten. Each program is built for this machine as well, and has to put out the same as a set, as one
# file, and by node. What is missing is said and skipped.
#
#     sh examples/libraries.sh bin/wdyl
#
# WDYL_LIBC is a folder that wdyl-libc has made. Without it WASI_LIBC_SOURCE is the folder of wasi-libc's sources, of which one is made
# here. PACK_SOURCES is a folder in which `apt-get source zlib bzip2 lz4 xz-utils` was said. CLANG, WASM_LD, RUSTC and EMCC name tools.
set -eu

program=$(cd "$(dirname "$1")" && pwd)/$(basename "$1")
examples=$(cd "$(dirname "$0")" && pwd)
work=$(mktemp -d)
trap 'rm -rf "$work"' EXIT
mkdir "$work/bin" "$work/native"
ln -s "$program" "$work/bin/wdyl"
PATH=$work/bin:$examples/../tools:$PATH
cd "$work"

has() {
    command -v "$1" >/dev/null || { echo "$1 is missing: $2"; return 1; }
}

same() {
    cmp "$1" "$2" || { echo "$3: this was put out:"; cat "$1"; exit 1; }
}

# Runs a command on the input, with its output to a file. It has to end with the wanted status.
run() {
    output=$1
    shift
    code=0
    "$@" <"$input" >"$output" || code=$?
    [ $code -eq "$status" ] || { echo "$* ended with status $code, and $status is wanted"; exit 1; }
}

# A program in the working folder: its input, what it has to put out, the wanted status, its name, options of the set, and its arguments.
ways() {
    input=$1 expected=$2 status=$3 main=$4 options=$5
    shift 5
    if [ -x "native/$main" ]; then
        run native.out env LD_LIBRARY_PATH=native "native/$main" "$@"
        same native.out "$expected" "$main, native"
    fi
    run run.out wdyl run $steps $options "$main.wasm" -- "$@"
    same run.out "$expected" "$main, run"
    wdyl merge $options "$main.wasm" one.wasm
    run exec.out wdyl exec $steps one.wasm -- "$@"
    same exec.out "$expected" "$main, exec"
    if [ "$has_node" = yes ]; then
        run node.out node --no-warnings "$examples/programs/wasi.mjs" one.wasm "$@"
        same node.out "$expected" "$main, node"
    fi
    echo "$main${*:+ $*}: the same in each way"
}

# ---- the C library

make_libc() {
    if [ -n "${WDYL_LIBC:-}" ]; then return; fi
    if [ -z "${WASI_LIBC_SOURCE:-}" ]; then
        echo "WASI_LIBC_SOURCE isn't set: no C library is made, and nothing is tried that needs one"
        exit
    fi
    export WDYL_LIBC="$work/libc"
    wdyl-libc "$WASI_LIBC_SOURCE" "$WDYL_LIBC"
    grep -q '^strtod: floating point$' "$WDYL_LIBC/left-out"
    ! grep -q -e '^sscanf:' -e '^printf:' -e '^malloc:' "$WDYL_LIBC/left-out"
}

survey() {
    source=$examples/libc
    if [ $has_cc = yes ]; then
        cc -O1 -shared -fPIC "$source/tally.c" -o native/libtally.so
        cc -O1 "$source/survey.c" -Lnative -ltally -o native/survey
    fi
    wdyl-cc -O2 -shared "$source/tally.c" -o libtally.so
    wdyl-cc -O2 "$source/survey.c" -L. -ltally -o survey.wasm
    ways "$source/input.txt" "$source/expected.txt" 3 survey "" last
}

# ---- C++

casts() {
    source=$examples/casts
    [ -e "$WDYL_LIBC/libcxx.so" ] || { echo "there is no libcxx.so: C++ isn't tried"; return; }
    if [ $has_cc = yes ]; then
        for name in parts late; do c++ -std=c++17 -O1 -shared -fPIC "$source/$name.cpp" -o native/lib$name.so; done
        c++ -std=c++17 -O1 -rdynamic "$source/casts.cpp" -Lnative -lparts -ldl -o native/casts
    fi
    for name in parts late; do wdyl-c++ -std=c++17 -O2 -shared "$source/$name.cpp" -o lib$name.so; done
    wdyl-c++ -std=c++17 -O2 "$source/casts.cpp" -L. -lparts --dl=liblate.so -o casts.wasm
    ways /dev/null "$source/expected.txt" 0 casts "--dl liblate.so" liblate.so
}

# ---- the packer

packer() {
    if [ -z "${PACK_SOURCES:-}" ]; then
        echo "PACK_SOURCES isn't set: the packer isn't built"
        return
    fi
    [ $has_cc = yes ] || return 0
    CC=cc sh "$examples/pack/build.sh" "$PACK_SOURCES" native
    CC=wdyl-cc sh "$examples/pack/build.sh" "$PACK_SOURCES" .
    # some blocks of text, and of code
    cat "$examples"/../docs/*.md "$examples"/programs/*.c "$examples"/programs/modules/* >text
    opened=
    for codec in zlib bzip2 lz4 xz; do opened=${opened:+$opened,}codec-$codec.so; done
    # packing by xz takes more steps than are given unasked
    steps="--steps 100000000000"
    for codec in zlib bzip2 lz4 xz; do
        LD_LIBRARY_PATH=native native/packer $codec <text >$codec.packed
        ways "$work/text" "$work/$codec.packed" 0 packer "--dl $opened" $codec
        ways "$work/$codec.packed" "$work/text" 0 packer "--dl $opened"
    done
    LD_LIBRARY_PATH=native native/packer list zlib bzip2 lz4 xz <text >listed
    ways "$work/text" "$work/listed" 0 packer "--dl $opened" list zlib bzip2 lz4 xz
    cat listed
    echo "one file of $(wc -c <one.wasm) bytes"
}

# ---- Rust

rust() {
    rustc=${RUSTC:-rustc}
    has "$rustc" "no library in Rust is tried" || return 0
    [ -d "$("$rustc" --print sysroot)/lib/rustlib/wasm32-unknown-unknown/lib" ] ||
        { echo "$rustc has no library for WebAssembly: no library in Rust is tried"; return; }
    source=$examples/rust
    wdyl-rustc "$source/words.rs" -o words.o
    wdyl-cc -shared words.o -o libwords.so
    wdyl-cc -O2 "$source/words.c" -L. -lwords -o words.wasm
    ways "$examples/programs/input.txt" "$source/expected.txt" 0 words "" 0 1
    status=134
    wdyl run words.wasm -- 7 <"$input" >trap.out 2>trap.told || [ $? -eq 134 ]
    grep -q 'trap unreachable' trap.told
}

# ---- Emscripten

emscripten() {
    emcc=${EMCC:-emcc}
    has "$emcc" "no library by Emscripten is tried" || return 0
    "$emcc" -O2 -sSIDE_MODULE=1 "$examples/libc/tally.c" -o libtally.so
    ways "$examples/libc/input.txt" "$examples/libc/expected.txt" 3 survey "" last
}

has_node=no has_cc=no steps=
if has node "the merged programs are run by wdyl alone"; then has_node=yes; fi
if has cc "the programs aren't built for this machine" && has c++ "the programs aren't built for this machine"; then has_cc=yes; fi
for tool in "${CLANG:-clang}" "${WASM_LD:-wasm-ld}"; do
    has "$tool" "nothing of this is tried" || exit 0
done
make_libc
echo "-- over $("${CLANG:-clang}" --version | head -n 1)"
survey
casts
rust
emscripten
packer
