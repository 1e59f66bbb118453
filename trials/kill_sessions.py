"""Kills of sessions; a folder of blocks that is put back to an older copy after one; full disks."""
import os
import resource
import shutil
import signal
import subprocess

from killing import LOOK, NAMES, Compared, Lost, System, kept_points, some_lines
from runs import Folders, Program


class Sessions(Compared):
    """SIGKILL in the midst of sessions, again and again. After each an honest session must answer the tree of a kept point: the last
    one whose `sync` was answered ok, or that of the sync that was under way."""

    def once(self):
        """One session that is stopped, in one of four cases the next one too while it opens and looks, and then the look."""
        lines = some_lines(self.chance, self.block_size)
        ended = self.system.stop_in(lines, self.chance)
        self.count("after the end" if ended.status == 0 else "opening or before the first answer" if not ended.answers else "in a session")
        self.count("kills", ended.status != 0)
        if self.chance.randrange(4) == 0:
            again = self.program.session(self.folders, LOOK, stop_after=self.chance.uniform(0, 0.5 * self.system.usual))
            self.count("kills", again.status == -signal.SIGKILL)
        points = kept_points(lines, ended)
        kept = self.system.look(lines, ended.answers, points)
        if len(points) > 1 and kept == max(points):
            self.count("a sync that wasn't answered was kept")


class RollBacks(Compared):
    """After a kill the folder of blocks is put back to an older copy: a violation must be answered, and every later run refused,
    over the honest files too. The file /guard is changed by a whole session after the copy, and by none later: its old block must be
    noticed."""

    # A file system on which a violation was met is refused from then on.
    KILLS_OF_ONE = 1

    def once(self):
        copy = os.path.join(self.top, "copy")
        guard = ["mkfile /guard", "write /guard 0 00"]
        for lines in (guard + self.lines(), ["write /guard 0 01"] + self.lines()):
            if self.program.session(self.folders, lines).status:
                raise Lost("a whole session over honest files ended with another status than 0")
            if not os.path.exists(copy):
                shutil.copytree(self.folders.blocks, copy)
        self.system.stop_in(self.lines(), self.chance)
        self.count("kills", self.system.stop_in(self.lines(), self.chance).status != 0)
        honest = shutil.copytree(self.folders.blocks, os.path.join(self.top, "honest"))
        self.put_back(copy)
        found = self.program.session(self.folders, ["read /guard 0 1", "ls /"])
        if found.status != 5 or not found.answers or not found.answers[0].startswith("violation ") or found.answers[1:] != ["refused violation"]:
            raise Lost(f"the old files weren't noticed: status {found.status}, {found.answers}")
        self.count(found.answers[0].split()[1])
        self.put_back(honest)
        if self.program.session(self.folders, ["ls /"]).status != 5:
            raise Lost("a run after a violation wasn't refused")

    def lines(self):
        return some_lines(self.chance, self.block_size)

    def put_back(self, copy):
        shutil.rmtree(self.folders.blocks)
        shutil.copytree(copy, self.folders.blocks)


class SmallDisk:
    """A folder on a small tmpfs; where none can be mounted, a limit on the sizes of the files that the program writes."""

    def __init__(self, folder, size):
        self.folder, self.size = folder, size
        self.mounted = subprocess.run(["mount", "-t", "tmpfs", "-o", f"size={size}", "tmpfs", folder], stderr=subprocess.DEVNULL).returncode == 0
        self.how = {} if self.mounted else {"preexec_fn": self.limit, "restore_signals": False}

    def limit(self):
        signal.signal(signal.SIGXFSZ, signal.SIG_IGN)
        resource.setrlimit(resource.RLIMIT_FSIZE, (self.size, self.size))

    def make_room(self):
        self.how = {}
        if self.mounted:
            subprocess.run(["mount", "-o", "remount,size=100%", self.folder], check=True)

    def end(self):
        if self.mounted:
            subprocess.run(["umount", self.folder], check=True)


def filling_lines(block_size):
    """Small groups of files with a sync after each, then one group that is too much for the disk, and lines after it."""
    bytes_of_one = "61" * (4 * (block_size - 86))
    names, lines = [f"/{one}/{other}{number}" for number in range(5) for one in NAMES for other in NAMES], []
    lines += [f"mkdir /{name}" for name in NAMES]
    for at, name in enumerate(names):
        lines += [f"mkfile {name}", f"write {name} 0 {bytes_of_one}"]
        lines += ["sync"] if at < 12 and at % 3 == 2 else []
    return lines + ["sync", "mkfile /a/a", "write /a/a 0 6162", "sync", "read /a/a 0 2"] + LOOK


def fill(program, block_size, within, which):
    """Whether sync answers the fault of that folder, the session goes on, and what is kept is there once there is room."""
    size = {"blocks": max(1 << 20, 180 * block_size), "state": max(48 << 10, 64 * block_size)}[which]
    folders, lines = Folders(within), filling_lines(block_size)
    syncs = [at + 1 for at, line in enumerate(lines) if line == "sync"]
    disk = SmallDisk(getattr(folders, which), size)
    kind = "fault directory" if which == "blocks" and disk.mounted else "fault state"
    try:
        system = System(program, folders, block_size)
        ended = program.session(folders, lines, **disk.how)
        answers = ended.answers
        faults = [at for at in syncs if answers[at - 1 : at] == [kind]]
        if ended.status not in (6, 7) or not faults:
            raise Lost(f"a full disk gave status {ended.status} and {len(answers)} answers to {len(lines)} lines, the last {answers[-1:]}")
        disk.make_room()
        last = max(at for at in syncs if at not in faults)
        # (a sync that answers a fault leaves the tree alone, as `ok` does)
        as_ever = ["ok" if at + 1 in faults else answer for at, answer in enumerate(answers)]
        kept = system.look(lines, as_ever, [last] + [at for at in faults if at > last] + [len(lines)])
        how = "a tmpfs" if disk.mounted else "a limit on the sizes of files"
        print(f"full {which} ({how} of {size} bytes): {len(faults)} syncs answered {kind}, the session went on; kept were {kept} of {len(lines)} lines")
    finally:
        disk.end()
    shutil.rmtree(folders.top)


def fill_both(given):
    """Each of the two folders has a full disk (a small tmpfs, where that can be mounted; else a limit on the sizes of files)."""
    for which in ("blocks", "state"):
        fill(Program(given.program), given.block_size, given.folder, which)
