"""Kills of `migrate`."""
import glob
import os
import re
import shutil
import signal

from killing import Kind, Lost
from runs import TOP, Folders, Program

PASSWORD = "pw"
STORED = os.path.join(TOP, "crates", "golden_tests", "src", "stored.rt")


def stored(name, text):
    return bytes.fromhex(re.search(rf'pub const {name}: &str =\s*"([0-9a-f]*)"', text)[1])


def lay_out(folders):
    """The file system of before, in place of what lies there."""
    for folder in (folders.blocks, folders.state):
        shutil.rmtree(folder)
        os.mkdir(folder)
    with open(STORED, encoding="utf-8") as file:
        text = file.read()
    files = {f"{folders.blocks}/cryfs.config": stored("CONFIG", text), f"{folders.state}/cryfs.localstate": stored("RECORD", text)}
    listed = re.search(r'pub const BLOCKS: &str =\s*"([^"]*)"', text)[1]
    for name, digits in map(str.split, listed.splitlines()):
        files[f"{folders.blocks}/{name[:3]}/{name[3:]}"] = bytes.fromhex(digits)
    for path, contents in files.items():
        os.makedirs(os.path.dirname(path), exist_ok=True)
        with open(path, "wb") as file:
            file.write(contents)


def formats(folders):
    """The formats of the block files that lie there."""
    return {open(path, "rb").read(16)[14] for path in glob.glob(f"{folders.blocks}/*/*")}


class Migrations(Kind):
    """On the file system that a program of before block format 2 made, whose bytes are those of `golden_tests`. They are laid into
    folders, and one to three runs of `migrate` are killed at any time within what a whole one takes. Then `check` must print what
    it printed before, and `migrate`, run to its end, must leave files of format 2 alone and the same tree."""

    def __init__(self, given, chance, counts):
        super().__init__(given, chance, counts)
        self.folders, self.program = Folders(given.folder), Program(given.program)
        self.top = self.folders.top
        lay_out(self.folders)
        self.listed = self.whole("check")
        self.usual = self.program.run(self.folders, ["migrate"], password=PASSWORD).seconds

    def whole(self, word):
        ended = self.program.run(self.folders, [word], password=PASSWORD)
        if ended.status:
            raise Lost(f"{word} ended with status {ended.status}: {ended.errors}{ended.output}")
        return ended.output

    def once(self):
        lay_out(self.folders)
        for _ in range(self.chance.randint(1, 3)):
            after = self.chance.uniform(0, 1.05 * self.usual)
            ended = self.program.run(self.folders, ["migrate"], password=PASSWORD, stop_after=after)
            self.count("kills", ended.status == -signal.SIGKILL)
        self.count("looks")
        self.count("at both formats", len(formats(self.folders)) > 1)
        if self.whole("check") != self.listed:
            raise Lost("another tree, or other blocks, after a kill")
        self.whole("migrate")
        if formats(self.folders) != {2} or self.whole("check") != self.listed:
            raise Lost("not all was written anew by a whole run")
