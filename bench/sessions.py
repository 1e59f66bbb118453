#!/usr/bin/env python3
"""What people do with a file system, in seconds: the built program on real folders beside CryFS on a mount, in the same run.

Each work is a session of its own over what the works before it left: from the program's start to its end less what opening
takes just before, and from the moment CryFS is mounted until its process has ended after unmounting. So both have stored
all; we flush each sync to the disk, and CryFS doesn't, unless --flush has this script do so. Opening alone is the whole of
a run without a line, with the default derivation of the key on each side; the works have a quick one on both, and their
memory is that of the whole session and that since mounting. Both have blocks of the same size, sealed by AES-256-GCM.
Processor time is the program's, and that of CryFS's process (not of the system's part in a mount, nor of who works on it).

Prints a table in markdown: medians of the rounds, the median of the rounds' ratios (below 1 we are ahead), the most memory
that the process held. CryFS is Debian's package (apt-get install cryfs fuse); without it, a mount or python's `cryptography`
its columns stay empty, and the line above the table says why. So do they where blocks have another size. A quick run:

    bench/sessions.py --megabytes 1 --random 20 --files 50 --walls 0.003 --rounds 1 --alone
"""
import argparse
import hashlib
import os
import platform
import re
import resource
import shutil
import subprocess
import sys
import threading
import time
from dataclasses import dataclass
from statistics import median

try:
    from cryfs_config import derive_quickly
except ImportError:
    derive_quickly = None
# How the program is run stands beside the trials.
sys.path.append(f"{os.path.dirname(os.path.dirname(os.path.abspath(__file__)))}/trials")
from runs import BUILT, PASSWORD, QUICK_KEY, Folders, Program, most_memory
from works import big_works, require, small_works, wall_works

# CryFS derives its key at each mount, for seconds on a machine at rest and minutes on a busy one.
WAITS = 900


@dataclass
class Took:
    """Seconds on the clock and of the processor, the most memory in KB, and how many files changed with their bytes."""

    seconds: float
    used: float
    peak: int
    changed: tuple = ()


def sums_in(folder):
    """The sum and the length of each file below the folder."""
    found = {}
    for at, _, names in os.walk(folder):
        for name in names:
            with open(f"{at}/{name}", "rb") as file:
                content = file.read()
            found[f"{at}/{name}"] = (hashlib.sha1(content).digest(), len(content))
    return found


def changed_in(before, after):
    """How many files are new or others, or gone, and the bytes of those that are new or others."""
    written = [path for path, sum in after.items() if before.get(path) != sum]
    return len(written) + len(before.keys() - after.keys()), sum(after[path][1] for path in written)


class Ours:
    def __init__(self, arguments):
        self.program, self.within, self.block_size = Program(arguments.program), arguments.folder, arguments.block_size
        self.folders = self.make(self.block_size, QUICK_KEY)
        self.blocks = self.folders.blocks

    def make(self, block_size, derivation=()):
        folders = Folders(self.within)
        self.program.create(folders, "--blocksize", str(block_size), *derivation)
        return folders

    def open(self):
        """Opening under the default derivation, over a file system of its own."""
        folders = self.make(self.block_size)
        before = used()
        ended = self.program.session(folders, [])
        shutil.rmtree(folders.top)
        return Took(ended.seconds, used() - before, ended.peak)

    def does(self, work):
        return True

    def do(self, work):
        """The work, in a file system of its own where it has a size of blocks of its own."""
        folders = self.folders if work.block_size is None else self.make(work.block_size, QUICK_KEY)
        before = used()
        opening = self.program.session(folders, [])
        between = used()
        ended = self.program.session(folders, work.lines)
        answers = ended.answers
        require(ended.status == 0 and len(answers) == len(work.lines) and work.is_well(answers),
                f"{work.name}: status {ended.status}, {len(answers)} answers to {len(work.lines)} lines, {ended.errors}")
        if folders is not self.folders:
            shutil.rmtree(folders.top)
        return Took(max(0.0, ended.seconds - opening.seconds), max(0.0, used() - between - (between - before)), ended.peak)

    def end(self):
        shutil.rmtree(self.folders.top)


class CryFs:
    """A file system of CryFS in folders of its own. It derives its key at each mount, for 13 s on a machine at rest, in more than 0.5 GB;
    so one is made for all rounds, and each has a copy with a quick derivation, as ours has."""

    made, quick = None, None

    def __init__(self, arguments):
        self.arguments = arguments
        if CryFs.made is None:
            self.make()
        self.use(copy_of(CryFs.made, arguments.folder))
        with open(f"{self.blocks}/cryfs.config", "wb") as file:
            file.write(CryFs.quick)

    def make(self):
        CryFs.made = Folders(self.arguments.folder)
        self.use(CryFs.made)
        self.run(lambda folder: None)
        with open(f"{self.blocks}/cryfs.config", "rb") as file:
            CryFs.quick = derive_quickly(file.read(), PASSWORD.encode())

    def use(self, folders):
        self.folders, self.blocks, self.mount = folders, folders.blocks, os.path.join(folders.top, "mount")
        os.makedirs(self.mount, exist_ok=True)
        self.words = ["cryfs", "-f", "--cipher", "aes-256-gcm", "--blocksize", str(self.arguments.block_size), self.blocks, self.mount]

    def run(self, work):
        """Mounts, works, unmounts, until its process has ended: what opening took, and what all after it."""
        environment = {**os.environ, "CRYFS_FRONTEND": "noninteractive", "CRYFS_NO_UPDATE_CHECK": "true",
                       "CRYFS_LOCAL_STATE_DIR": self.folders.state}
        before, start, peak = used(), time.monotonic(), [0]
        process = subprocess.Popen(self.words, stdin=subprocess.PIPE, stdout=subprocess.DEVNULL, stderr=subprocess.PIPE, env=environment)
        process.stdin.write(PASSWORD.encode() + b"\n")
        process.stdin.close()
        while not os.path.ismount(self.mount):
            if process.poll() is not None or time.monotonic() - start > WAITS:
                process.kill()
                raise OSError(f"CryFS didn't mount within {WAITS} s: {process.stderr.read().decode()[-300:]}")
            time.sleep(0.002)
        opening = Took(time.monotonic() - start, used_by(process.pid), most_of(process.pid))
        forget_most(process.pid)
        watch = threading.Thread(target=most_memory, args=(process.pid, peak))
        watch.start()
        mounted, began = time.monotonic(), time.time() - 1
        try:
            work(self.mount)
        finally:
            subprocess.run(["fusermount", "-u", self.mount], check=True)
        process.wait()
        if self.arguments.flush:
            flush_files(self.blocks, began)
        seconds = time.monotonic() - mounted
        watch.join()
        process.stderr.close()
        return opening, Took(seconds, used() - before - opening.used, peak[0])

    def open(self):
        """Opening under the default derivation, over a file system of its own."""
        mine = self.folders
        self.use(copy_of(CryFs.made, self.arguments.folder))
        opening, closing = self.run(lambda folder: None)
        shutil.rmtree(self.folders.top)
        self.use(mine)
        return Took(opening.seconds + closing.seconds, opening.used + closing.used, opening.peak)

    def does(self, work):
        return work.block_size is None

    def do(self, work):
        return self.run(work.on_mount)[1]

    def end(self):
        shutil.rmtree(self.folders.top)


def copy_of(folders, within):
    copied = Folders(within)
    for name in ("blocks", "state"):
        shutil.copytree(f"{folders.top}/{name}", f"{copied.top}/{name}", dirs_exist_ok=True)
    return copied


def used():
    """Seconds of processor time that ended processes of this script took."""
    usage = resource.getrusage(resource.RUSAGE_CHILDREN)
    return usage.ru_utime + usage.ru_stime


def used_by(pid):
    """The same of a process that runs."""
    with open(f"/proc/{pid}/stat") as status:
        fields = status.read().rpartition(")")[2].split()
    return (int(fields[11]) + int(fields[12])) / os.sysconf("SC_CLK_TCK")


def most_of(pid):
    with open(f"/proc/{pid}/status") as status:
        return int(re.search(r"VmHWM:\s+(\d+)", status.read())[1])


def forget_most(pid):
    """Has the system count the most memory of the process anew."""
    with open(f"/proc/{pid}/clear_refs", "w") as file:
        file.write("5")


def flush_files(folder, since):
    """Flushes each file and folder below that was changed since this moment, as our program flushes those it writes."""
    for at, _, names in os.walk(folder):
        for path in [f"{at}/{name}" for name in names] + [at]:
            if os.stat(path).st_mtime >= since:
                descriptor = os.open(path, os.O_RDONLY)
                os.fsync(descriptor)
                os.close(descriptor)


def one_round(arguments, works, sides):
    """What each work took on each side, one side after the other at each work."""
    made = [side(arguments) for side in sides]
    found = {"opening alone": [side.open() for side in made]}
    for work in works:
        found[work.name] = []
        for side in [side for side in made if side.does(work)]:
            before = sums_in(side.blocks) if work.counts_files else None
            took = side.do(work)
            took.changed = changed_in(before, sums_in(side.blocks)) if work.counts_files else ()
            found[work.name].append(took)
    for side in made:
        side.end()
    return found


def peers(arguments):
    """Both sides, or ours alone and why."""
    if arguments.alone:
        return [Ours], "CryFS wasn't asked for"
    if derive_quickly is None:
        return [Ours], "python's `cryptography` isn't there, by which CryFS is opened quickly"
    if not shutil.which("cryfs") or not shutil.which("fusermount"):
        return [Ours], "the command `cryfs` isn't there"
    try:
        CryFs(arguments).end()
    except (OSError, subprocess.CalledProcessError) as why:
        return [Ours], f"CryFS can't be mounted here: {why}"
    said = subprocess.run(["cryfs", "--version"], capture_output=True, text=True, check=False).stdout.split("\n")[0]
    return [Ours, CryFs], said


def row(name, rounds):
    """A row of the table: medians, and the medians of the rounds' ratios."""
    cells = [name]
    for value in (lambda took: took.seconds, lambda took: took.used):
        medians = [f"{median(value(found[name][side]) for found in rounds):.3f}" for side in range(len(rounds[0][name]))]
        cells += [*medians, ratio(name, rounds, value)] if len(medians) == 2 else [*medians, "-", "-"]
    peaks = [f"{median(found[name][side].peak for found in rounds) / 1024:.1f}" for side in range(len(rounds[0][name]))]
    return "| " + " | ".join([*cells, *peaks, *["-"] * (2 - len(peaks))]) + " |"


def ratio(name, rounds, value):
    return f"{median(value(found[name][0]) / max(value(found[name][1]), 1e-3) for found in rounds):.2f}"


def print_table(arguments, rounds, sides, said, loads):
    where = f"{platform.machine()}, {os.cpu_count()} processors, load {loads[0]:.1f} to {loads[1]:.1f}"
    print(f"\n{time.strftime('%Y-%m-%d')}, {where}; blocks of {arguments.block_size:,} bytes; medians of {len(rounds)}; {said}\n")
    print("| Work | ours, s | CryFS, s | ratio | ours, processor s | CryFS, processor s | ratio | ours, MB | CryFS, MB |")
    print("|---|---|---|---|---|---|---|---|---|")
    for name in rounds[0]:
        print(row(name, rounds))
    for name, took in rounds[0].items():
        for side, it in zip(sides, took):
            if it.changed:
                print(f"\n{name}, {'ours' if side is Ours else 'CryFS'}: {it.changed[0]} files changed, {it.changed[1]:,} bytes", end="")
    print()


def main():
    parser = argparse.ArgumentParser(description=__doc__, formatter_class=argparse.RawDescriptionHelpFormatter)
    parser.add_argument("--megabytes", type=int, default=64, help="of the big file (64)")
    parser.add_argument("--line", type=int, default=500_000, help="bytes written or read by one line (500000)")
    parser.add_argument("--random", type=int, default=1000, help="writes and reads of 4 KiB at random places (1000)")
    parser.add_argument("--files", default="1000,10000", help="numbers of small files (1000,10000)")
    parser.add_argument("--walls", type=float, default=0, metavar="SHARE",
                        help="what grew faster than its size once, too, at this share of its sizes: 1 takes long (0: none)")
    parser.add_argument("--rounds", type=int, default=3)
    parser.add_argument("--flush", action="store_true", help="count the flush of CryFS's files too, as ours are flushed")
    parser.add_argument("--alone", action="store_true", help="without CryFS")
    parser.add_argument("--block-size", type=int, default=16384)
    parser.add_argument("--folder", help="where the folders are made (the system's folder for temporary files)")
    parser.add_argument("--program", default=BUILT)
    arguments = parser.parse_args()
    works = big_works(arguments) + [work for count in arguments.files.split(",") for work in small_works(int(count))]
    works += wall_works(arguments.walls) if arguments.walls else []
    sides, said = peers(arguments)
    before, rounds = os.getloadavg()[0], []
    for number in range(arguments.rounds):
        rounds.append(one_round(arguments, works, sides))
        print(f"round {number + 1} of {arguments.rounds} is done", file=sys.stderr, flush=True)
    if CryFs.made:
        shutil.rmtree(CryFs.made.top)
    print_table(arguments, rounds, sides, said, (before, os.getloadavg()[0]))


if __name__ == "__main__":
    main()
