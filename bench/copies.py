#!/usr/bin/env python3
"""A folder copied in and out, in seconds: `import` and `export` of the built program beside `cp -r` into and out of CryFS on a mount, in
the same run.

Each copy is a run of its own: ours from the program's start to its end less what opening takes just before, CryFS from the
moment it is mounted until its process has ended after unmounting. What is written is flushed on both sides: the sealed
files by our program, those of CryFS by this script, what comes out by our program or, behind `cp`, by this script. What comes out is compared
with what went in. Both have blocks of the same size, sealed by AES-256-GCM, and a quick derivation of the key.

Prints a table in markdown, as sessions.py does: medians of the rounds, the median of the rounds' ratios (below 1 we are ahead), the most
memory that the process held. A quick run:

    bench/copies.py --megabytes 4 --files 200 --rounds 1
"""
import argparse
import filecmp
import os
import random
import shutil
import sys
import tempfile

# How the program is run stands beside the trials.
sys.path.append(f"{os.path.dirname(os.path.dirname(os.path.abspath(__file__)))}/trials")
from runs import BUILT, QUICK_KEY, Folders, Program
from sessions import CryFs, Took, flush_files, peers, print_table, used
from works import DIRECTORIES, OF_SMALL, require


def big_folder(folder, megabytes):
    """One file of random bytes."""
    os.mkdir(folder)
    with open(f"{folder}/big", "wb") as file:
        file.write(random.Random(7).randbytes(megabytes << 20))


def small_folder(folder, count):
    """Files of 40 bytes in 16 folders."""
    for number in range(DIRECTORIES):
        os.makedirs(f"{folder}/d{number}")
    for number in range(count):
        with open(f"{folder}/d{number % DIRECTORIES}/f{number}", "wb") as file:
            file.write(OF_SMALL)


def compare(one, other):
    """Fails where a folder isn't the other."""
    found = filecmp.dircmp(one, other)
    _, differ, failed = filecmp.cmpfiles(one, other, found.common_files, shallow=False)
    require(not (found.left_only or found.right_only or differ or failed), f"{one} and {other} differ")
    for name in found.common_dirs:
        compare(f"{one}/{name}", f"{other}/{name}")


class OursCopies:
    """Our program: a file system of its own for each folder."""

    def __init__(self, arguments):
        self.program, self.within = Program(arguments.program), arguments.folder
        self.options = ["--blocksize", str(arguments.block_size), *QUICK_KEY]

    def take(self, source):
        self.folders = Folders(self.within)
        self.program.create(self.folders, *self.options)
        return self.copy("import", source)

    def give(self, target):
        took = self.copy("export", target)
        self.folders.remove()
        return took

    def copy(self, word, folder):
        before = used()
        opening = self.program.session(self.folders, [])
        between = used()
        ended = self.program.run(self.folders, [word, folder, "/"])
        require(ended.status == 0, f"{word}: status {ended.status}, {ended.output}{ended.errors}")
        return Took(max(0.0, ended.seconds - opening.seconds), max(0.0, used() - between - (between - before)), ended.peak)


class CryFsCopies:
    """CryFS: a folder that is mounted for each copy."""

    def __init__(self, arguments):
        self.arguments = arguments

    def take(self, source):
        self.side = CryFs(self.arguments)
        return self.copy(source, None)

    def give(self, target):
        took = self.copy(None, target)
        self.side.end()
        return took

    def copy(self, source, target):
        spent = [0.0]

        def work(mount):
            words = ["cp", "-r", f"{source or mount}/.", target or mount]
            _, status, usage = os.wait4(os.posix_spawnp("cp", words, os.environ), 0)
            require(status == 0, " ".join(words))
            spent[0] = usage.ru_utime + usage.ru_stime
            if target:
                flush_files(target, 0)

        took = self.side.run(work)[1]
        return Took(took.seconds, max(0.0, took.used - spent[0]), took.peak)


def one_round(sides, folders, within):
    """What each copy took on each side, one side after the other."""
    found = {}
    for name, source in folders.items():
        for side in sides:
            target = tempfile.mkdtemp(prefix="copied-", dir=within)
            took = side.take(source), side.give(target)
            compare(source, target)
            shutil.rmtree(target)
            for word, it in zip(("in", "out"), took):
                found.setdefault(f"{name}, {word}", []).append(it)
    return found


def main():
    parser = argparse.ArgumentParser(description=__doc__, formatter_class=argparse.RawDescriptionHelpFormatter)
    parser.add_argument("--megabytes", type=int, default=64, help="of the one file (64)")
    parser.add_argument("--files", type=int, default=10_000, help="number of small files (10000)")
    parser.add_argument("--rounds", type=int, default=3)
    parser.add_argument("--alone", action="store_true", help="without CryFS")
    parser.add_argument("--block-size", type=int, default=16384)
    parser.add_argument("--folder", help="where the folders are made (the system's folder for temporary files)")
    parser.add_argument("--program", default=BUILT)
    arguments = parser.parse_args()
    arguments.flush = True
    found, said = peers(arguments)
    sides = [OursCopies(arguments), CryFsCopies(arguments)][: len(found)]
    before, rounds = os.getloadavg()[0], []
    with tempfile.TemporaryDirectory(prefix="copies-", dir=arguments.folder) as top:
        big_folder(f"{top}/big", arguments.megabytes)
        small_folder(f"{top}/small", arguments.files)
        folders = {f"{arguments.megabytes} MiB in one file": f"{top}/big", f"{arguments.files:,} files of 40 bytes": f"{top}/small"}
        for number in range(arguments.rounds):
            rounds.append(one_round(sides, folders, arguments.folder))
            print(f"round {number + 1} of {arguments.rounds} is done", file=sys.stderr, flush=True)
    if CryFs.made:
        shutil.rmtree(CryFs.made.top)
    print_table(arguments, rounds, found, said, (before, os.getloadavg()[0]))


if __name__ == "__main__":
    main()
