#!/bin/sh
# Runs the commands of docs/GUIDE.md, then those of README.md and of docs/TOOLS.md, and compares what they print with what is shown there.
#
#     sh examples/guide.sh bin/wdyl
#
# A block that begins with ```console has commands, each behind `$ ` (and `> ` where it goes on), with what it prints.
# The words behind `console` tell what it needs. Where something is missing, this is said, and the block is skipped. With the word
# `repository` it is run beside a copy of examples/, else in a folder of its own, which the guide and the README share. A block whose
# first line names a file, as ```c say.c, is written into both. In all commands $share is examples/programs.
#
# CLANG and WASM_LD name other tools than `clang` and `wasm-ld`. WASI_LIBC_SOURCE is a folder with the sources of wasi-libc, of which
# wdyl-libc makes a C library where WDYL_LIBC has none.
set -eu

program=$(cd "$(dirname "$1")" && pwd)/$(basename "$1")
top=$(cd "$(dirname "$0")/.." && pwd)
reference=$top/docs/TOOLS.md
work=$(mktemp -d)
trap 'rm -rf "$work"' EXIT
mkdir "$work/tools" "$work/blocks" "$work/guide" "$work/reference" "$work/repository"
cp -R "$top/examples" "$work/repository/examples"
ln -s "$program" "$work/tools/wdyl"
for name in clang wasm-ld; do
    case $name in clang) named=${CLANG:-} ;; *) named=${WASM_LD:-} ;; esac
    [ -z "$named" ] || ln -s "$(command -v "$named")" "$work/tools/$name"
done
PATH=$work/tools:$top/tools:$PATH
libc=${WDYL_LIBC:-}
export WDYL_LIBC="$work/none"
export share="$work/repository/examples/programs"

# Each block becomes a file of its words, one of its text, one of the commands that print that text, and one of its folder.
awk -v to="$work/blocks" '
function ended() {
    if (shown == "") return
    printf "cat <<\\END_OF_COMMAND\n%sEND_OF_COMMAND\n%s\n", shown, command > (at ".sh")
    print "code=$?; [ $code -eq 0 ] || echo \"This ended with status $code.\"" > (at ".sh")
    shown = command = ""
}
/^```/ {
    if (is_open) { ended(); is_open = 0; if (at != "") { close(at ".text"); close(at ".sh") } next }
    is_open = 1
    at = ""
    if (NF < 2 && $0 != "```console") next
    at = sprintf("%s/%03d", to, ++count)
    print substr($0, 4) > (at ".words")
    close(at ".words")
    print (FILENAME ~ /TOOLS/ ? "reference" : "guide") > (at ".folder")
    close(at ".folder")
    printf "" > (at ".text")
    has_commands = $1 == "```console"
    next
}
!is_open { next }
at == "" { if (/^\$ /) { print "a command stands in a block that is not run: " $0; exit 1 } next }
{ print > (at ".text") }
has_commands && /^\$ / { ended(); shown = $0 "\n"; command = substr($0, 3) "\n"; next }
has_commands && /^> / { shown = shown $0 "\n"; command = command substr($0, 3) "\n"; next }
' "$top/docs/GUIDE.md" "$top/README.md" "$reference"

links_for_wasi() {
    echo 'int main(void) { return 0; }' >"$work/try.c"
    clang -Wno-deprecated --target=wasm32-wasi "$work/try.c" -lc-printscan-no-floating-point -o "$work/try.wasm" 2>/dev/null
}

makes_position_independent() {
    echo 'int here; int *there(void) { return &here; }' >"$work/try.c"
    clang -Wno-deprecated --target=wasm32-wasi -fPIC -fvisibility=default -c "$work/try.c" -o "$work/try.o" 2>/dev/null &&
        wasm-ld --experimental-pic -shared --unresolved-symbols=import-dynamic "$work/try.o" -o "$work/try.so" 2>/dev/null
}

# Whether main's own uses of its data go to its own, as an option that came with this shows.
keeps_data_apart() {
    ! wasm-ld --unresolved-symbols=import-dynamic 2>&1 | grep -q 'unknown --unresolved-symbols'
}

# The C library of WDYL_LIBC, or one that is made at the first block that takes it.
has_c_library() {
    if [ ! -e "$libc/libc.so" ] && [ -n "${WASI_LIBC_SOURCE:-}" ] && [ -e "$top/tools/wdyl-libc" ]; then
        libc=$work/libc
        python3 "$top/tools/wdyl-libc" "$WASI_LIBC_SOURCE" "$libc" || exit 1
    fi
    [ -e "$libc/libc.so" ]
}

# Whether there is what a word tells of. What is missing is named.
has() {
    missing=$1
    case $1 in
    repository) true ;;
    data-apart) missing="a wasm-ld that keeps all data of main apart (15 and later)" && keeps_data_apart ;;
    rpath) missing="the option -rpath of wasm-ld" && wasm-ld --help 2>/dev/null | grep -q -e -rpath ;;
    wasi-libc) missing="wasi-libc, with the library and the linker that clang takes with it" && links_for_wasi ;;
    c-library) missing="a C library, in WDYL_LIBC" && has_c_library ;;
    wasi-libc-source) missing="the sources of wasi-libc, in WASI_LIBC_SOURCE" && [ -n "${WASI_LIBC_SOURCE:-}" ] ;;
    pic-for-wasi) missing="position-independent code for wasm32-wasi, by this clang and this wasm-ld" && makes_position_independent ;;
    *) command -v "$1" >/dev/null ;;
    esac
}

ran=0 skipped=0
for words in "$work"/blocks/*.words; do
    block=${words%.words}
    read -r kind needs <"$words"
    read -r folder <"$block.folder"
    if [ "$kind" != console ]; then
        cp "$block.text" "$work/$folder/$needs"
        cp "$block.text" "$work/repository/$needs"
        continue
    fi
    lacks= chosen=$work/none
    for need in $needs; do
        [ "$need" != repository ] || folder=repository
        [ -n "$lacks" ] || has "$need" || lacks=$missing
        [ "$need" != c-library ] || chosen=$libc
    done
    if [ -n "$lacks" ]; then
        skipped=$((skipped + 1))
        echo "$lacks" >>"$work/lacking"
        continue
    fi
    (cd "$work/$folder" && WDYL_LIBC=$chosen sh "$block.sh" >"$block.printed" 2>&1 </dev/null)
    if ! cmp -s "$block.text" "$block.printed"; then
        echo "This is shown, and printed is:"
        diff "$block.text" "$block.printed"
        exit 1
    fi
    ran=$((ran + 1))
done

# The reference and the manual page tell of each line that the program may put.
awk '
/^##/ { is_in = $0 == "### The line" }
is_in && /^- `/ {
    rest = substr($0, 3)
    while (match(rest, /^`[^`]*`/)) {
        print substr(rest, 2, RLENGTH - 2)
        rest = substr(rest, RLENGTH + 1)
        sub(/^, /, "", rest)
    }
}' "$top/docs/FORMATS.md" >"$work/lines"
[ "$(wc -l <"$work/lines")" -ge 35 ] || { echo "docs/FORMATS.md has other lines than this script reads"; exit 1; }
sed 's/\\-/-/g' "$top/man/wdyl.1" >"$work/manual"
while IFS= read -r line; do
    grep -qF -e "\`$line\`" "$reference" || { echo "docs/TOOLS.md doesn't tell of the line: $line"; exit 1; }
    grep -qF -e "$line" "$work/manual" || { echo "man/wdyl.1 doesn't tell of the line: $line"; exit 1; }
done <"$work/lines"

echo "$ran blocks of commands print what is shown."
if [ $skipped -gt 0 ]; then
    echo "$skipped blocks were skipped, for these are missing:"
    sort "$work/lacking" | uniq -c | sed 's/^ *[0-9]* /  /'
fi
