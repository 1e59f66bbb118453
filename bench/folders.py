#!/usr/bin/env python3
"""What flushing costs: the built program puts a file of so many blocks into a new file system, writes over it, and imports small files. It does
so as the wrapper runs it, whose helper flushes the disk at once; with each file flushed by itself; and with flushes that do nothing.

Needs a C compiler, for the library that takes the place of the system's flush. The words are how many blocks of 16,384 bytes,
the folder in which the file systems are made (default: this one), and further builds of the program to compare with.
Prints the median of three interleaved runs of each, less opening, and of the first two their ratio in each round: the file made, half a
mebibyte after another of it written over, and 2,000 files of 40 bytes imported.
"""
import os
import shutil
import subprocess
import sys
import tempfile
import time
from statistics import median

# How the program is run stands beside the trials.
sys.path.append(f"{os.path.dirname(os.path.dirname(os.path.abspath(__file__)))}/trials")
from runs import BUILT, TOP
from works import OF_SMALL

NO_FLUSH = "int fsync(int fd) { return 0; }\nint fdatasync(int fd) { return 0; }\n"
# The bytes of a file that a block holds, and those that a line writes.
PAYLOAD, PIECE = 16298, 1 << 19
SMALL = 2000
WRAPPER, TOGETHER, EACH = f"{TOP}/cryfs", "flushed together", "flushed each"


def build_no_flush(folder):
    source, library = os.path.join(folder, "no_flush.c"), os.path.join(folder, "no_flush.so")
    with open(source, "w") as file:
        file.write(NO_FLUSH)
    subprocess.run(["cc", "-shared", "-fPIC", "-o", library, source], check=True)
    return library


def seconds(program, folder, words, given, environment):
    start = time.monotonic()
    subprocess.run([program, f"{folder}/b", f"{folder}/s", *words], input=b"pw\n" + given, check=True, stdout=subprocess.DEVNULL,
                   env=environment)
    return time.monotonic() - start


def make_small(folder):
    """A folder of small files."""
    os.mkdir(folder)
    for number in range(SMALL):
        with open(f"{folder}/{number}", "wb") as file:
            file.write(OF_SMALL)


def times_of(within, program, count, environment):
    """The time that a file of so many blocks takes, that of its bytes written over, and that of an import, each less that of an empty session."""
    folder, size = tempfile.mkdtemp(dir=within), count * PAYLOAD
    # (a helper is lent for a folder that is there)
    os.mkdir(f"{folder}/b")
    make_small(f"{folder}/f")
    seconds(program, folder, ["create"], b"", environment)
    os.sync()
    over = b"".join(b"write /f %d %s\n" % (at, b"61" * min(PIECE, size - at)) for at in range(0, size, PIECE))
    idle = seconds(program, folder, ["shell"], b"", environment)
    works = (["put", "/f"], b"x" * size), (["shell"], over + b"mkdir /d\n"), (["import", f"{folder}/f", "/d"], b"")
    times = [seconds(program, folder, *it, environment) - idle for it in works]
    shutil.rmtree(folder)
    return times


def main():
    count = int(sys.argv[1]) if len(sys.argv) > 1 else 4000
    within = sys.argv[2] if len(sys.argv) > 2 else "."
    with tempfile.TemporaryDirectory() as scratch:
        library = build_no_flush(scratch)
        kinds = {TOGETHER: (WRAPPER, dict(os.environ)), EACH: (WRAPPER, {**os.environ, "CRYFS_FLUSH": "each"})}
        kinds["not flushed"] = BUILT, {"LD_PRELOAD": library}
        kinds.update((f"by {other}", (other, {})) for other in sys.argv[3:])
        times = {kind: [] for kind in kinds}
        for _ in range(3):
            for kind, (program, environment) in kinds.items():
                times[kind].append(times_of(within, program, count, environment))
    for kind, runs in times.items():
        new, replaced, small = (median(run[i] for run in runs) for i in range(3))
        print(f"{count} blocks {kind}: new {new:.2f} s, replaced {replaced:.2f} s; {SMALL} files {small:.2f} s")
    ratios = [[f"{one[i] / other[i]:.2f}" for one, other in zip(times[TOGETHER], times[EACH])] for i in range(3)]
    print(f"together / each: new {', '.join(ratios[0])}; replaced {', '.join(ratios[1])}; {SMALL} files {', '.join(ratios[2])}")


if __name__ == "__main__":
    main()
