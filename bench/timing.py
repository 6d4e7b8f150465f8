"""What the benches of the program share: files in a folder, and how long a command takes."""

import os
import subprocess
import sys

# the modules are made by the functions of the examples
sys.path.insert(0, os.path.join(os.path.dirname(os.path.abspath(__file__)), "..", "examples"))

MB = 1 << 20
RUNS = 3
# How many times as long twice as much of a set may take.
MOST_GROWTH = 2.5


def written(files, folder):
    """Writes files, which are given by their names."""
    for name, data in files.items():
        with open(os.path.join(folder, name), "wb") as out:
            out.write(data)


def waited(command, folder, status=0):
    """The seconds of processor time that a command takes, and its peak of memory in bytes. It has to end with this status."""
    process = subprocess.Popen(command, cwd=folder, stdout=subprocess.DEVNULL, stderr=subprocess.DEVNULL)
    _, ended, usage = os.wait4(process.pid, 0)
    if os.waitstatus_to_exitcode(ended) != status:
        sys.exit(f"{' '.join(command)}: status {os.waitstatus_to_exitcode(ended)}")
    return usage.ru_utime + usage.ru_stime, usage.ru_maxrss * 1024


def best(command, folder, status=0):
    """The least of the seconds of three runs."""
    return min(waited(command, folder, status)[0] for _ in range(RUNS))


def doubled(what, measured, half, whole):
    """Tells how long two sizes took, one twice the other, and whether the greater one took at most 2.5 times as long."""
    ratio = whole / half
    said = "in line" if ratio <= MOST_GROWTH else "MORE THAN IN LINE"
    print(f"{what}: {measured[0]}: {half:.3f} s, {measured[1]}: {whole:.3f} s, {ratio:.2f} times as long: {said}", flush=True)
    return ratio <= MOST_GROWTH
