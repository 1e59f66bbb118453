"""Runs of the built program on real folders, for the scripts beside this file."""
import os
import re
import shutil
import subprocess
import tempfile
import threading
import time
from dataclasses import dataclass

TOP = os.path.dirname(os.path.dirname(os.path.abspath(__file__)))
BUILT = os.path.join(TOP, "crates", "cryfs", "out", "cryfs")
PASSWORD = "a password for trials"
# The cheapest key derivation: what it costs isn't looked at where these are used.
QUICK_KEY = ["--scrypt-n", "2", "--scrypt-r", "1"]


class Folders:
    """A folder for the blocks and one for the record, in a folder of their own."""

    def __init__(self, within=None):
        self.top = tempfile.mkdtemp(prefix="cryfs-", dir=within)
        self.blocks, self.state = os.path.join(self.top, "blocks"), os.path.join(self.top, "state")
        os.mkdir(self.blocks)
        os.mkdir(self.state)

    def remove(self):
        shutil.rmtree(self.top, ignore_errors=True)


@dataclass
class Ended:
    """How a run ended: its status (negative for a signal), its output and what it said, seconds, and the most memory in KB."""

    status: int
    output: str
    errors: str
    seconds: float
    peak: int

    @property
    def answers(self):
        return split_answers(self.output)


def most_memory(pid, told):
    """Notes the most memory in KB that the process has held, every 10 ms until it ends. (What wait4 says holds python's own.)"""
    while True:
        try:
            with open(f"/proc/{pid}/status") as status:
                found = re.search(r"VmHWM:\s+(\d+)", status.read())
        except OSError:
            return
        if not found:
            return
        told[0] = int(found[1])
        time.sleep(0.01)


class Program:
    def __init__(self, path=BUILT, before=()):
        """The program, called by the words before it, where there are some."""
        self.path, self.before = os.path.abspath(path), list(before)
        if not os.access(self.path, os.X_OK):
            raise SystemExit(f"{self.path} isn't built: run ./build")

    def run(self, folders, words, lines=(), password=PASSWORD, stop_after=None, **how):
        """Runs the words over a password line, where there is one, and lines. It is killed after `stop_after` seconds. The
        streams are files, so that neither side waits for this script."""
        with tempfile.TemporaryFile() as given, tempfile.TemporaryFile() as output, tempfile.TemporaryFile() as errors:
            given.writelines(line.encode() + b"\n" for line in [*([] if password is None else [password]), *lines])
            given.seek(0)
            peak, start = [0], time.monotonic()
            process = subprocess.Popen([*self.before, self.path, folders.blocks, folders.state, *words], stdin=given, stdout=output,
                                       stderr=errors, **how)
            watch = threading.Thread(target=most_memory, args=(process.pid, peak))
            watch.start()
            stop = threading.Timer(3600 if stop_after is None else stop_after, process.kill)
            stop.start()
            process.wait()
            seconds = time.monotonic() - start
            stop.cancel()
            watch.join()
            output.seek(0)
            errors.seek(0)
            return Ended(process.returncode, output.read().decode(), errors.read().decode(), seconds, peak[0])

    def create(self, folders, *options):
        ended = self.run(folders, ["create", *options])
        if ended.status:
            raise SystemExit(f"create ended with status {ended.status}: {ended.errors}")
        return ended

    def session(self, folders, lines, **how):
        return self.run(folders, ["shell"], lines, **how)

    def trial(self, lines):
        """The answers of the plain tree in memory to these lines."""
        with tempfile.TemporaryDirectory() as nowhere:
            nothing = Folders(nowhere)
            ended = self.run(nothing, ["trial"], lines, password=None)
        if ended.status or len(ended.answers) != len(lines):
            raise SystemExit(f"trial ended with status {ended.status} and {len(ended.answers)} answers to {len(lines)} lines: {ended.errors}")
        return ended.answers


def split_answers(text):
    """The whole answers in an output: a `list` with all its rows is one. What a stop cut off isn't there."""
    rows = text.split("\n")[:-1]
    answers, at = [], 0
    while at < len(rows):
        more = int(rows[at].split()[1]) if re.fullmatch(r"list \d+", rows[at]) else 0
        if at + more < len(rows):
            answers.append("\n".join(rows[at : at + 1 + more]))
        at += 1 + more
    return answers
