#!/usr/bin/env python3
"""A mounted folder's speed, in seconds: what people do in one of the built programs, beside the same in a plain folder, and beside CryFS where
that is installed, all in one run.

In each folder a file of so many MiB is written and flushed by fsync, then read, with what the kernel kept of it dropped before. Small files are made,
stat-ed and removed, and a repository of git is cloned. Last the folder is unmounted, until its process has ended: what waits is written by then.
Mounting is counted by itself, with a quick derivation of the key on both sides. A plain folder lies on the same disk.

Prints a table in markdown: medians of the rounds, and the medians of the rounds' ratios (below 1 we are ahead). What isn't here leaves its
column empty, and the line above the table says why. Needs /dev/fuse, and root or fusermount3; the clone needs git. A quick run:

    bench/mounts.py --megabytes 4 --files 50 --rounds 1
"""
import argparse
import os
import platform
import random
import shutil
import subprocess
import sys
import tempfile
import time
from statistics import median

# How a folder is mounted stands beside the trials.
sys.path.append(f"{os.path.dirname(os.path.dirname(os.path.abspath(__file__)))}/trials")
from mounting import System, lacks
from runs import TOP
from sessions import CryFs, peers
from works import OF_SMALL, require

PIECE = 1 << 20
# What is cloned: the texts of this repository that a person reads.
CLONED = ("docs", "trials", "wrapper", "bench", "tools")


def write(place, given):
    content = random.Random(7).randbytes(PIECE)
    file = os.open(f"{place}/big", os.O_WRONLY | os.O_CREAT)
    for _ in range(given.megabytes):
        require(os.write(file, content) == PIECE, "a write was short")
    os.fsync(file)
    os.close(file)


def read(place, given):
    file = os.open(f"{place}/big", os.O_RDONLY)
    os.posix_fadvise(file, 0, 0, os.POSIX_FADV_DONTNEED)
    length = 0
    while piece := os.read(file, PIECE):
        length += len(piece)
    os.close(file)
    require(length == given.megabytes * PIECE, f"{length} bytes were read")


def make(place, given):
    os.mkdir(f"{place}/small")
    for number in range(given.files):
        with open(f"{place}/small/{number}", "wb") as file:
            file.write(OF_SMALL)


def look(place, given):
    for number in range(given.files):
        require(os.stat(f"{place}/small/{number}").st_size == len(OF_SMALL), "a file has another length")


def remove(place, given):
    for number in range(given.files):
        os.remove(f"{place}/small/{number}")


def clone(place, given):
    if given.repository:
        subprocess.run(["git", "clone", "-q", "--no-local", given.repository, f"{place}/clone"], check=True)


def works(given):
    """What is done, in its order, by its name in the table."""
    big, small = f"{given.megabytes} MiB", f"{given.files:,} files of {len(OF_SMALL)} bytes"
    found = {f"{big} written, then fsync": write, f"{big} read": read, f"{small} made": make, "each stat-ed": look, "each removed": remove}
    return {**found, "git clone": clone} if given.repository else found


def timed(place, given):
    """The seconds of each work in this folder."""
    found = {}
    for name, work in works(given).items():
        began = time.monotonic()
        work(place, given)
        found[name] = time.monotonic() - began
    return found


class Plain:
    """A folder of the disk."""

    name = "plain"

    def __init__(self, given):
        self.given = given

    def run(self):
        with tempfile.TemporaryDirectory(dir=self.given.folder) as folder:
            return timed(folder, self.given)


class Mounted(Plain):
    """A folder of the program, mounted by `./cryfs`."""

    name = "ours"

    def run(self):
        with tempfile.TemporaryDirectory(dir=self.given.folder) as top:
            system = System(top).create()
            try:
                began = time.monotonic()
                system.mount()
                mounted = time.monotonic()
                found = {"mounting": mounted - began, **timed(system.folder, self.given)}
                began = time.monotonic()
                system.unmount()
                return {**found, "unmounting": time.monotonic() - began}
            finally:
                system.end()


class Peer(Plain):
    """A folder of CryFS."""

    name = "CryFS"

    def run(self):
        other, found, ended = CryFs(self.given), {}, [0.0]

        def work(folder):
            found.update(timed(folder, self.given))
            ended[0] = time.monotonic()

        opening, _ = other.run(work)
        unmounting = time.monotonic() - ended[0]
        other.end()
        return {"mounting": opening.seconds, **found, "unmounting": unmounting}


def repository(top):
    """A repository of one commit; nothing where there is no git."""
    if not shutil.which("git"):
        return ""
    folder, own = f"{top}/repository", ["-c", "user.name=bench", "-c", "user.email=bench@localhost"]
    for it in CLONED:
        shutil.copytree(f"{TOP}/{it}", f"{folder}/{it}", ignore=shutil.ignore_patterns("__pycache__"))
    for words in (["init", "-q"], ["add", "-A"], [*own, "commit", "-q", "-m", "all"]):
        subprocess.run(["git", "-C", folder, *words], check=True)
    return folder


def row(name, rounds, sides):
    """A row of the table."""
    def cell(told):
        times = [told(it) for it in rounds if told(it) is not None]
        return f"{median(times):.3f}" if times else "-"

    def against(other):
        have = [(it["ours"][name], it[other][name]) for it in rounds if other in it and name in it[other]]
        return f"{median(one / max(two, 1e-4) for one, two in have):.2f}" if have else "-"

    times = [cell(lambda it, side=side: it.get(side, {}).get(name)) for side in sides]
    return "| " + " | ".join([name, *times, against("plain"), against("CryFS")]) + " |"


def print_table(given, rounds, said, loads):
    where = f"{platform.machine()}, {os.cpu_count()} processors, load {loads[0]:.1f} to {loads[1]:.1f}"
    print(f"\n{time.strftime('%Y-%m-%d')}, {where}; blocks of {given.block_size:,} bytes; medians of {len(rounds)}; {said}\n")
    print("| Work | ours, s | plain, s | CryFS, s | ours / plain | ours / CryFS |\n|---|---|---|---|---|---|")
    for name in ("mounting", *works(given), "unmounting"):
        print(row(name, rounds, ("ours", "plain", "CryFS")))


def main():
    parser = argparse.ArgumentParser(description=__doc__, formatter_class=argparse.RawDescriptionHelpFormatter)
    parser.add_argument("--megabytes", type=int, default=64, help="of the big file (64)")
    parser.add_argument("--files", type=int, default=1000, help="small files (1000)")
    parser.add_argument("--rounds", type=int, default=3)
    parser.add_argument("--alone", action="store_true", help="without CryFS")
    parser.add_argument("--folder", help="where the folders are made (the system's folder for temporary files)")
    given = parser.parse_args()
    # (what `peers` asks besides: ours has these by itself)
    given.block_size, given.flush = 16384, False
    if lacks():
        sys.exit(f"nothing was measured: {lacks()}")
    others, said = peers(given)
    sides = [it(given) for it in ([Mounted, Plain, Peer] if CryFs in others else [Mounted, Plain])]
    before, rounds = os.getloadavg()[0], []
    with tempfile.TemporaryDirectory() as top:
        given.repository = repository(top)
        for number in range(given.rounds):
            rounds.append({side.name: side.run() for side in sides})
            print(f"round {number + 1} of {given.rounds} is done", file=sys.stderr, flush=True)
    if CryFs.made:
        shutil.rmtree(CryFs.made.top)
    print_table(given, rounds, said, (before, os.getloadavg()[0]))


if __name__ == "__main__":
    main()
