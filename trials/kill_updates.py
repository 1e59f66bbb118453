"""Kills of `./cryfs update`."""
import os
import shutil
import signal
import subprocess
import tempfile
import threading
import time

from kill_copies import random_rows
from killing import Kind, Lost
from rows import make_rows, rows_of
from runs import TOP

BESIDE = ".sergunad-update"
# The statuses of a run that met another one, which is still ending.
USED = (6, 7)


class Updates(Kind):
    """A folder gets other rows, and an update with --delete-all is killed, with the program, at any time within what a whole one takes.
    Then each row is that of before or that of the folder, and each path that both have is there. One alone may be missing, where
    its row changes its kind: then the old row is whole in the update's own directory, and so is the new one, where that is no
    directory. A whole update follows, after which the tree is the folder's. `./cryfs` of this checkout runs its own program,
    whatever `--program` says."""

    KILLS_OF_ONE = 100

    def __init__(self, given, chance, counts):
        super().__init__(given, chance, counts)
        self.usual, self.rows = None, {}
        self.top = tempfile.mkdtemp(prefix="cryfs-updates-", dir=given.folder)
        self.call("create", "--scrypt-n", "16", "--blocksize", str(given.block_size))

    def call(self, *words, stop_after=None):
        """The status and the seconds of a run, which is killed with all that it began."""
        started = time.monotonic()
        process = subprocess.Popen([f"{TOP}/cryfs", "b", "s", *words], cwd=self.top, stdin=subprocess.PIPE, stdout=subprocess.PIPE,
                                   stderr=subprocess.PIPE, start_new_session=True)
        stop = threading.Timer(3600 if stop_after is None else stop_after, os.killpg, (process.pid, signal.SIGKILL))
        stop.start()
        _, errors = process.communicate(b"pw\n")
        stop.cancel()
        if process.returncode not in (0, -signal.SIGKILL, *USED):
            raise Lost(f"{words[0]} ended with {process.returncode}: {errors.decode()}")
        return process.returncode, time.monotonic() - started

    def whole(self, *words):
        """The seconds of a run that has to end well, once what was killed has ended."""
        for _ in range(600):
            status, seconds = self.call(*words)
            if status == 0:
                return seconds
            time.sleep(0.1)
        raise Lost(f"{words[0]} never ended well")

    def found(self):
        """What an export makes of the tree, without what an update writes beside."""
        shutil.rmtree(f"{self.top}/found", ignore_errors=True)
        os.mkdir(f"{self.top}/found")
        self.whole("export", "found", "/")
        return rows_of(f"{self.top}/found")

    def judge(self, found, after, status):
        """Counts how far a killed update came, where nothing is lost."""
        left = {path: row for path, row in found.items() if path.split("/")[0] != BESIDE}
        odd = [it for it, row in left.items() if not any(it in rows and rows[it] == row for rows in (self.rows, after))]
        gone = [it for it in self.rows if it in after and it not in left]
        kept = [it for it in gone if self.is_beside(it, found, after)]
        if odd or len(gone) > 1 or gone != kept or status == 0 and found != after:
            raise Lost(f"after status {status}: neither old nor new {odd}, gone {gone}, of these beside {kept}")
        if status:
            self.count("kills")
            self.count("between two rows", len(kept))
            self.count("whole" if left == after else "not at all" if left == self.rows else "in part")

    def is_beside(self, path, found, after):
        """Whether a row that changes its kind was moved aside, and the new one waits."""
        old, new = (f"{BESIDE}/{it}" for it in ("old", "new"))
        kinds = type(self.rows[path]) is not type(after[path])
        return kinds and old in found and found[old] == self.rows[path] and (after[path] is None or found.get(new, None) == after[path])

    def once(self):
        shutil.rmtree(f"{self.top}/given", ignore_errors=True)
        after = random_rows(self.chance, self.block_size)
        # (some rows stay, so that what both have can be looked for)
        after |= {path: row for path, row in self.rows.items() if path in after and self.chance.randrange(2)}
        after = {path: row for path, row in after.items() if not os.path.dirname(path) or after.get(os.path.dirname(path), "") is None}
        make_rows(f"{self.top}/given", after)
        stop_after = None if self.usual is None else self.chance.uniform(0, 1.1 * self.usual)
        status, seconds = self.call("update", "given", "/", "--delete-all", stop_after=stop_after)
        self.judge(self.found(), after, status)
        again = self.whole("update", "given", "/", "--delete-all")
        # (after a kill it is the whole one that does the work)
        taken = again if status else seconds
        self.usual = taken if self.usual is None else 0.5 * (self.usual + taken)
        if self.found() != after:
            raise Lost("the tree isn't the folder's after a whole update")
        self.rows = after
