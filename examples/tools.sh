#!/bin/sh
# Tries what stands beside the program: wdyl-cc and wdyl-c++, the files for CMake and Meson, plan-picture, module-names, and the
# completions of shells. What is missing is said and skipped.
#
#     sh examples/tools.sh bin/wdyl
#
# CLANG and WASM_LD name other tools than `clang` and `wasm-ld`. Without them each version of Debian that is there is tried.
set -eu

program=$(cd "$(dirname "$1")" && pwd)/$(basename "$1")
top=$(cd "$(dirname "$0")/.." && pwd)
share=$top/examples/programs
work=$(mktemp -d)
trap 'rm -rf "$work"' EXIT
mkdir "$work/bin"
ln -s "$program" "$work/bin/wdyl"
PATH=$work/bin:$top/tools:$PATH
unset WDYL_SHARE || :
export WDYL_LIBC="$work/none"

has() {
    command -v "$1" >/dev/null || { echo "$1 is missing: $2"; return 1; }
}

same() {
    cmp "$1" "$2" || { echo "$3: this was put out:"; cat "$1"; exit 1; }
}

# A main module in the working folder: what it has to put out, its name, options of the set, and its arguments. It is run as a set and as
# one file, by wdyl and by node; what it puts out goes to a file each time.
ways() {
    expected=$1 main=$2 options=$3
    shift 3
    wdyl run $options "$main" -- "$@" <"$share/input.txt" >run.out
    same run.out "$expected" "$main, run"
    wdyl merge $options "$main" one.wasm
    wdyl exec one.wasm -- "$@" <"$share/input.txt" >exec.out
    same exec.out "$expected" "$main, exec"
    if [ "$has_node" = yes ]; then
        node --no-warnings "$share/wasi.mjs" one.wasm "$@" <"$share/input.txt" >node.out
        same node.out "$expected" "$main, node"
    fi
}

# ---- wdyl-cc

programs() {
    for name in io report letters; do wdyl-cc -O2 -c "$share/$name.c"; done
    wdyl-cc -shared io.o -o libio.so
    wdyl-cc -shared report.o -L. -lio -o libreport.so
    wdyl-cc -O2 -shared "$share/crc.c" libreport.so -o libcrc.so
    wdyl-cc -O2 -shared "$share/adler.c" -L . -l report -o libadler.so
    wdyl-cc -O2 "$share/checksums.c" -L. -lcrc -ladler -lreport -lio -o checksums.wasm
    ways "$share/expected/checksums.txt" checksums.wasm ""

    wdyl-cc -shared letters.o -o libletters.so
    for name in upper rot13; do wdyl-cc -O2 -shared "$share/$name.c" -L. -lletters -o "lib$name.so"; done
    wdyl-cc -O2 "$share/filters.c" --dl=libupper.so,librot13.so -o filters.wasm
    ways "$share/expected/filters.txt" filters.wasm "--dl libupper.so,librot13.so" libupper.so librot13.so libnone.so librot13.so

    wdyl-c++ -O2 -shared "$share/square.cpp" -o libsquare.so
    wdyl-c++ -O2 "$share/shapes.cpp" -L. -lsquare -o shapes.wasm
    ways "$share/expected/shapes.txt" shapes.wasm ""
}

# What a library uses of main, where main hides it, and names and values with spaces.
shapes_of_lines() {
    mkdir -p "a folder"
    cat >"a folder/asks.c" <<'END'
const char *answer(void);
extern int asked;
const char *ask(void) { asked++; return answer(); }
END
    cat >"a folder/main.c" <<'END'
#include "io.h"
int asked;
const char *answer(void) { return TEXT; }
const char *ask(void);
int main(void) { put(ask()); put_number(asked); put("\n"); return 0; }
END
    echo "it's \"so\" 1" >so.txt
    wdyl-cc -shared "a folder/asks.c" -o "a folder/libasks.so"
    wdyl-cc -fvisibility=hidden -DTEXT='"it'"'"'s \"so\" "' "a folder/main.c" -L"a folder" -lasks -o "a folder/so.wasm"
    ways so.txt "a folder/so.wasm" ""
    # the lines that -v prints do the same
    mkdir -p again
    wdyl-cc -v "a folder/asks.c" -shared -o again/libasks.so 2>lines
    grep -q -e '^[^ ]*wasm-ld[^ ]* --experimental-pic -shared --allow-undefined ' lines
    same again/libasks.so "a folder/libasks.so" "the library again"
}

# What nothing defines is told, all at once, and nothing is written.
refused() {
    cat >lacks.c <<'END'
void nobody(void);
extern int nothing;
int main(void) { nobody(); return nothing; }
END
    code=0
    wdyl-cc lacks.c -o lacks.wasm 2>lacks.txt || code=$?
    printf 'wdyl-cc: nothing defines %s, which lacks.wasm uses\n' nobody nothing >expected.txt
    same lacks.txt expected.txt lacks
    [ $code -eq 1 ] && [ ! -e lacks.wasm ] || { echo "lacks.wasm was linked"; exit 1; }
    code=0
    wdyl-cc lacks.c -labsent -o lacks.wasm 2>lacks.txt || code=$?
    [ $code -eq 1 ] || { echo "a library that isn't there was found"; exit 1; }
    wdyl-cc -Wl,--allow-undefined lacks.c -o lacks.wasm
}

# ---- CMake and Meson

project() {
    printf 'to ten: 55\nto a hundred: 5050\n2 sums\n' >sums.txt
    if has cmake "the project isn't built by it"; then
        CFLAGS=--libc=none cmake -DCMAKE_TOOLCHAIN_FILE="$share/wdyl.cmake" -S "$top/examples/project" -B cmake >cmake.log 2>&1 ||
            { cat cmake.log; exit 1; }
        { cmake --build cmake && (cd cmake && ctest --output-on-failure); } >cmake.log 2>&1 || { cat cmake.log; exit 1; }
        ways sums.txt cmake/sums.wasm ""
    fi
    if has meson "the project isn't built by it" && has ninja "the project isn't built by meson"; then
        { meson setup --cross-file "$share/wdyl.meson" -Dc_args=--libc=none -Dc_link_args=--libc=none meson "$top/examples/project" &&
            meson compile -C meson && meson test -C meson; } >meson.log 2>&1 || { cat meson.log; exit 1; }
        ways sums.txt meson/sums.wasm ""
    fi
}

# ---- what needs no compiler

pictures() {
    has python3 "no pictures are made" || return 0
    (cd "$share/modules" && wdyl plan timetable.wasm) >timetable.plan
    python3 "$share/plan-picture" timetable.plan >timetable.svg
    same timetable.svg "$top/docs/timetable.svg" plan-picture
    python3 "$share/plan-picture" --dot <timetable.plan | grep -q '"1" -> "3" .tooltip="by_ferry, by_tram, harbour, market, north"'
    ! echo "no plan" | python3 "$share/plan-picture" >no.svg 2>no.txt
    echo "pictures: the same"
}

names() {
    sh "$share/module-names" "$share/modules/liblines.so" >names.txt
    cat >expected.txt <<'END'
needs libcity.so
function env by_tram
function env by_ferry
func by_tram
mem north
mem market
mem harbour
func by_ferry
code __wasm_call_ctors
code __wasm_apply_data_relocs
data lines
END
    same names.txt expected.txt module-names
    ! sh "$share/module-names" "$share/io.c" 2>no.txt
    echo "names of modules: the same"
}

completions() {
    folder=$top/tools/completions
    if has bash "its completions aren't tried"; then
        bash -c '. "$1"; cd "$2"
        try() { COMP_WORDS=("$@"); COMP_CWORD=$(($# - 1)); COMPREPLY=(); _wdyl 2>/dev/null; echo "${COMPREPLY[*]}"; }
        try wdyl r; try wdyl exec --; try wdyl board --s; try wdyl plan --dl libio.so,libci' bash "$folder/wdyl.bash" "$share/modules" >bash.txt
        printf '%s\n' "run replay" "--steps" "--stack --steps --slice" "libio.so,libcity.so" >expected.txt
        same bash.txt expected.txt bash
        echo "completions of bash: the same"
    fi
    if has zsh "its completions aren't tried"; then
        zsh -f -c 'fpath=("$1" $fpath); autoload -U compinit && compinit -u -D; print $_comps[wdyl]; autoload +X _wdyl' zsh "$folder" >zsh.txt
        echo _wdyl >expected.txt
        same zsh.txt expected.txt zsh
        echo "completions of zsh: loaded"
    fi
    if has fish "its completions aren't tried"; then
        HOME=$work fish -c 'source $argv[1]; complete -C "wdyl r"; complete -C "wdyl board --s"' "$folder/wdyl.fish" | cut -f 1 | sort >fish.txt
        printf '%s\n' --slice --stack --steps replay run >expected.txt
        same fish.txt expected.txt fish
        echo "completions of fish: the same"
    fi
}

has_node=no
if has node "what was merged is run by wdyl alone"; then has_node=yes; fi
cd "$work"
pictures
names
completions
tried=
for version in "" -14 -16 -19 -22; do
    [ -z "${CLANG:-}${WASM_LD:-}" ] || [ -z "$version" ] || continue
    if ! command -v "${CLANG:-clang$version}" >/dev/null || ! command -v "${WASM_LD:-wasm-ld$version}" >/dev/null; then continue; fi
    told=$("${WASM_LD:-wasm-ld$version}" --version)
    case $tried in *"$told"*) continue ;; esac
    tried="$tried $told;"
    mkdir "built$version"
    echo "-- wdyl-cc, by $told"
    (
        cd "built$version"
        export CLANG="${CLANG:-clang$version}" WASM_LD="${WASM_LD:-wasm-ld$version}"
        programs
        shapes_of_lines
        refused
        project
    )
    echo "programs and projects: the same"
done
[ -n "$tried" ] || echo "clang or wasm-ld is missing: wdyl-cc isn't tried"
