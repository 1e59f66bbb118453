#!/usr/bin/env python3
"""Sees by the system calls of the built program that an export that ended with 0 has flushed all that it made.

A tree of folders, files and links is exported under strace. Of each file a flush has to come behind its last write, and of each folder one behind the
last row that was made in it, also of the one that was named. The judge is tried first on the same calls less their flushes: it has to see
each file and each folder. Ends with 1 where anything else was seen. Needs strace."""
import argparse
import os
import re
import subprocess
import sys
import tempfile

from calls import strace
from runs import BUILT, QUICK_KEY, Folders, Program

CALLS = "openat,mkdir,mkdirat,symlink,symlinkat,write,pwrite64,ftruncate,fsync,fdatasync"
ROWS = ["mkdir /a", "mkdir /a/b", "mkdir /c", "mkfile /empty", "mkfile /a/some", "write /a/some 0 616263", "mkfile /a/b/large",
        "write /a/b/large 300000 64", "mkfile /c/last", "write /c/last 0 65", "symlink 2f61 /a/link"]
MADE = re.compile(r'^\d+ +(mkdir|mkdirat|symlink|symlinkat)\(.*"([^"]*)"[^"]*\) += 0$')
OPENED = re.compile(r'^\d+ +openat\([^"]*"[^"]*", ([A-Z_|0-9]+).*\) += (\d+)<([^>]*)>$')
DONE = re.compile(r"^\d+ +(write|pwrite64|ftruncate|fsync|fdatasync)\(\d+<([^>]*)>.*\) += \d+$")


class Judge:
    """What each line of strace's output did: the place of the last change of each path, and of the last flush."""

    def __init__(self, lines, without=()):
        self.changed, self.flushed, self.numbers = {}, {}, {}
        for place, line in enumerate(lines):
            self.take(place, line, without)

    def path_of(self, text):
        """A path by the number of an open folder, as that folder's."""
        found = re.match(r"/proc/self/fd/(\d+)(/.*)?$", text)
        return os.path.normpath(self.numbers.get(found[1], "?") + (found[2] or "") if found else text)

    def take(self, place, line, without):
        if found := MADE.match(line):
            self.changed[os.path.dirname(self.path_of(found[2]))] = place
        elif found := OPENED.match(line):
            self.numbers[found[2]] = found[3]
            if "O_CREAT" in found[1]:
                self.changed[found[3]] = self.changed[os.path.dirname(found[3])] = place
        elif (found := DONE.match(line)) and found[1] not in without:
            (self.flushed if found[1] in ("fsync", "fdatasync") else self.changed)[found[2]] = place

    def unflushed(self, paths):
        """Those of the paths that were changed behind their last flush, or never seen to change."""
        return [path for path in paths if path not in self.changed or self.flushed.get(path, -1) < self.changed[path]]


def held_in(top):
    """The paths of all folders and files below, and of the folder itself, and which of the folders have a row."""
    found = []
    for folder, below, files in os.walk(top):
        if below or files:
            found.append(folder)
        found += [path for path in (os.path.join(folder, name) for name in files) if not os.path.islink(path)]
    return sorted(found)


def check(program, folders):
    ended = program.run(folders, ["create", *QUICK_KEY])
    ended = ended if ended.status else program.run(folders, ["shell"], ROWS)
    if ended.status:
        raise SystemExit(f"no tree was made: {ended.status}, {ended.errors}")
    to = os.path.join(os.path.realpath(folders.top), "out")
    os.mkdir(to)
    with tempfile.NamedTemporaryFile("r") as trace:
        traced = [*strace(trace.name, "trace=" + CALLS), "-y"]
        ended = Program(program.path, traced).run(folders, ["export", to, "/"])
        lines = trace.read().splitlines()
    if ended.status:
        raise SystemExit(f"the export ended with status {ended.status}: {ended.errors}")
    paths = held_in(to)
    blind = Judge(lines, without=("fsync", "fdatasync")).unflushed(paths)
    if blind != paths:
        print(f"FAILED the judge passes over {sorted(set(paths) - set(blind))} where nothing is flushed")
        return False
    for path in Judge(lines).unflushed(paths):
        print(f"FAILED {os.path.relpath(path, to)} was changed behind its last flush")
    print(f"an export flushed {len(paths)} files and folders, {sum('fsync(' in line or 'fdatasync(' in line for line in lines)} flushes")
    return not Judge(lines).unflushed(paths)


def main():
    parser = argparse.ArgumentParser(description=__doc__, formatter_class=argparse.RawDescriptionHelpFormatter)
    parser.add_argument("--program", default=BUILT)
    asked = parser.parse_args()
    if subprocess.run(["strace", "-V"], stdout=subprocess.DEVNULL, check=False).returncode:
        raise SystemExit("there is no strace")
    folders = Folders()
    try:
        return 0 if check(Program(asked.program), folders) else 1
    finally:
        folders.remove()


if __name__ == "__main__":
    sys.exit(main())
