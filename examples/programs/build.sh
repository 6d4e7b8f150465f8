#!/bin/sh
# Builds the modules of the programs again, from their sources, with clang and wasm-ld.
#
#     sh examples/programs/build.sh [FOLDER [OPTION ..]]
#
# FOLDER is examples/programs/modules where none is given; further words are further options of the compiler. CLANG and WASM_LD name
# other tools than `clang` and `wasm-ld`. The modules in the repository were made by clang-19 and wasm-ld-19, both 19.1.7, as Debian 12
# has them: those in `modules` without further options, those in `extended` with `-mextended-const`, by which segments begin behind a
# base.
set -eu

source=$(cd "$(dirname "$0")" && pwd)
to=${1:-$source/modules}
[ $# -eq 0 ] || shift
options=$*
mkdir -p "$to"
to=$(cd "$to" && pwd)
work=$(mktemp -d)
trap 'rm -rf "$work"' EXIT
cd "$work"

# The first word is the source, the others are further options.
compile() {
    file=$1
    name=${file##*/}
    shift
    "${CLANG:-clang}" --target=wasm32-unknown-emscripten -O2 -fPIC -fvisibility=default -ffreestanding -mbulk-memory \
        $options "$@" -c "$file" -o "${name%.*}.o"
}
# what wdyl-libc makes libc.so and libcxx.so of isn't for these programs
for file in "$source"/*.c; do
    [ "${file##*/}" = libc_more.c ] || compile "$file"
done
for file in "$source"/*.cpp; do
    case ${file##*/} in cxx_*) ;; *) compile "$file" -fno-exceptions -fno-rtti -fno-threadsafe-statics ;; esac
done

# The first word is the module, the others are what it is linked of.
library() {
    module=$1
    shift
    "${WASM_LD:-wasm-ld}" --experimental-pic -shared "$@" -o "$module"
}
main() {
    module=$1
    shift
    "${WASM_LD:-wasm-ld}" --experimental-pic -pie --import-memory --export-dynamic "$@" -o "$module"
}

library libio.so io.o
library libreport.so report.o libio.so
library libcrc.so crc.o libreport.so
library libadler.so adler.o libreport.so
main checksums.wasm start.o checksums.o libcrc.so libadler.so libreport.so libio.so

library libcity.so city.o
library liblines.so lines.o libcity.so
main timetable.wasm start.o timetable.o liblines.so libio.so

library libletters.so letters.o
library libupper.so upper.o libletters.so
library librot13.so rot13.o libletters.so
main filters.wasm --import-undefined start.o filters.o libio.so

main count.wasm start.o count.o libio.so
main numbers.wasm start.o numbers.o libio.so
main errors.wasm start.o errors.o libio.so
main blocks.wasm --allow-undefined start.o blocks.o heap.o libio.so
main growing.wasm --allow-undefined start.o growing.o heap.o libio.so

library libdoor.so --import-undefined door.o libio.so
main visits.wasm start.o visits.o libdoor.so libio.so

library libruntime.so --allow-undefined runtime.o heap.o io.o
library libsquare.so square.o libruntime.so
main shapes.wasm start_cxx.o shapes.o libsquare.so libruntime.so
main words.wasm start_cxx.o words.o libruntime.so
main huge.wasm start_cxx.o huge.o libruntime.so

chmod a-x ./*.so ./*.wasm
cp ./*.so ./*.wasm "$to"
