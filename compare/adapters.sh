#!/bin/sh
# Runs the program over files, streams and a random source of the system that fail, and compares its status and what it puts to the errors with
# what is told here: a path where nothing is, a folder, a path through a file, a file that may not be read or written, /dev/full, a pipe that
# nobody reads, an input that comes in pieces, and a random source without bytes. It runs as nobody where it is begun as root, since root may
# read all files; what this system can't do is named. The exit status is 1 where something comes otherwise.
#
#     sh compare/adapters.sh bin/wdyl
set -eu

program=$1
examples=$(dirname "$0")/../examples
work=$(mktemp -d)
trap 'chmod -R u+rwX "$work"; rm -rf "$work"' EXIT
cp "$program" "$work/wdyl"
cp "$examples/smallest/main.wasm" "$work/main.wasm"
cp "$examples/says/main.wasm" "$work/says.wasm"
cp "$examples/diamond/main.wasm" "$work/diamond.wasm"
cp "$examples/programs/modules/count.wasm" "$examples/programs/modules/libio.so" "$work"
cp "$examples/programs/input.txt" "$work/input"
# asks for eight random bytes, and exits with the errno
python3 - >"$work/random.wasm" <<'END'
import sys
types = "03 60 02 7f 7f 01 7f 60 01 7f 00 60 00 00"
wasi = b"\x16wasi_snapshot_preview1"
imports = b"\x02" + wasi + b"\x0arandom_get\x00\x00" + wasi + b"\x09proc_exit\x00\x01"
sections = [(1, bytes.fromhex(types)), (2, imports), (3, b"\x01\x02"), (5, b"\x01\x00\x01"), (7, b"\x01\x06_start\x00\x02"),
            (10, bytes.fromhex("01 0a 00 41 00 41 08 10 00 10 01 0b"))]
sys.stdout.buffer.write(b"\0asm\1\0\0\0" + b"".join(bytes([number, len(part)]) + part for number, part in sections))
END
mkdir "$work/folder" "$work/liba.so" "$work/closed"
cp "$examples/smallest/main.wasm" "$work/locked.wasm"
cp "$examples/smallest/main.wasm" "$work/closed/main.wasm"
nobody=
if [ "$(id -u)" -eq 0 ]; then
    nobody="setpriv --reuid=65534 --regid=65534 --clear-groups --no-new-privs"
    chown -R 65534:65534 "$work"
fi
chmod 755 "$work" "$work/wdyl"
chmod 000 "$work/locked.wasm" "$work/closed"
cd "$work"
failed=no

# What is looked into, the wanted status, the wanted line of the errors, and a command.
holds() {
    name=$1 status=$2 line=$3
    shift 3
    code=0
    $nobody "$@" >output 2>errors || code=$?
    if [ "$code" -eq "$status" ] && [ "$(cat errors)" = "$line" ]; then
        echo "$name: as told"
    else
        echo "$name: told $status and '$line', came $code and '$(cat errors)'"
        failed=yes
    fi
}

# The same of a command in a shell, which may lead its streams elsewhere. The status of what it runs is its own.
shell() {
    name=$1 status=$2 line=$3 command=$4
    holds "$name" "$status" "$line" sh -c "$command"
}

holds "nothing there" 65 "wdyl: missing none.wasm" ./wdyl run none.wasm
holds "nothing in a folder that isn't there" 65 "wdyl: missing main.wasm" ./wdyl run none/main.wasm
holds "a folder" 66 "wdyl: read fault folder" ./wdyl run folder
holds "a folder in place of a library" 66 "wdyl: read fault liba.so" ./wdyl run diamond.wasm
holds "a path through a file" 66 "wdyl: read fault main.wasm/a" ./wdyl run main.wasm/a
holds "a file that may not be read" 66 "wdyl: read fault locked.wasm" ./wdyl run locked.wasm
holds "a file in a folder that may not be entered" 66 "wdyl: read fault closed/main.wasm" ./wdyl run closed/main.wasm
holds "the same of a file that is run alone" 66 "wdyl: read fault locked.wasm" ./wdyl exec locked.wasm
holds "written to a full device" 74 "wdyl: write fault" ./wdyl merge main.wasm /dev/full
holds "written to a folder" 74 "wdyl: write fault" ./wdyl merge main.wasm folder
holds "written in a folder that isn't there" 74 "wdyl: write fault" ./wdyl merge main.wasm none/out.wasm
holds "written to a file that may not be" 74 "wdyl: write fault" ./wdyl merge main.wasm locked.wasm
holds "written, and run" 0 "" sh -c './wdyl merge main.wasm out.wasm && ./wdyl exec out.wasm'
shell "a listing to a full device" 74 "wdyl: write fault" './wdyl plan main.wasm >/dev/full'
shell "a summary to a full device" 74 "wdyl: write fault" './wdyl gen 2 >/dev/full'
shell "a listing that nobody reads" 74 "wdyl: write fault" '{ sleep 1; code=0; ./wdyl plan main.wasm || code=$?; echo $code >code; } | true; sleep 2; exit $(cat code)'
shell "a program whose output is full goes on" 0 "" './wdyl exec says.wasm >/dev/full'
shell "a line that can't be put" 65 "" './wdyl run none.wasm 2>/dev/full'
shell "a trap whose line can't be put" 66 "" './wdyl run folder 2>/dev/full'

# The input in pieces, and at once.
code=0
$nobody ./wdyl run count.wasm -- -l -w -c <input >once 2>errors || code=$?
{ head -c 1 input; sleep 0.2; head -c 50 input | tail -c 49; sleep 0.2; tail -c +51 input; } | $nobody ./wdyl run count.wasm -- -l -w -c >pieces 2>>errors
if [ $code -eq 0 ] && [ -s once ] && cmp -s once pieces && [ ! -s errors ]; then
    echo "an input in pieces: as told"
else
    echo "an input in pieces: other than at once"
    failed=yes
fi

holds "random bytes" 0 "" ./wdyl exec random.wasm
nobody=
if unshare -rm sh -c 'mount --bind /dev/null /dev/urandom' 2>/dev/null; then
    holds "a random source without bytes" 29 "" unshare -rm sh -c 'mount --bind /dev/null /dev/urandom && ./wdyl exec random.wasm'
else
    echo "a random source without bytes: no file may be mounted here, so this isn't looked into"
fi
[ $failed = no ]
