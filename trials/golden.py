#!/usr/bin/env python3
"""Makes a file system with a built program, and prints it as the constants of a crate of golden tests.

    trials/golden.py PROGRAM FOLDER > crates/golden_tests/src/stored.rt

PROGRAM is the executable itself (`crates/cryfs/out/cryfs`); FOLDER is made, and holds the block folder and the state
folder afterwards. Two sessions are closed well. A third can't put the root's block, since a folder lies in its file's place
while it syncs: so the record that it leaves lists what waits, and goes with the files of the second. Each run is told on
standard error with the times before and after it, between which its moment lies. The constants are what a later program
has to open: they are made once, before a format changes, and never anew."""

import os
import subprocess
import sys
import time

PASSWORD = b"pw\n"
REPORT = bytes(i % 251 for i in range(2000)).hex()
FIRST = f"""mkdir /docs
mkdir /docs/deep
mkdir /docs/deep/er
mkfile /docs/report
write /docs/report 0 {REPORT}
mkfile /docs/note
write /docs/note 3 616263
symlink ../docs/note /link
mkfile /old
mkfile /gone
mkdir /empty
sync
chmod /docs/note 640
chown /docs/note 1000 100
utime /docs/deep 5.000000006 7.000000008
"""
SECOND = """mv /old /docs/deep/er/new\\x20name
rm /gone
rmdir /empty
truncate /docs/report 1900
write /docs/report 1000 ffee
write /docs/note 6 0a
chmod /docs 711
"""
THIRD = """mkfile /docs/late
write /docs/late 0 6c617465
mv /link /docs/deep/link
"""


def read(path):
    with open(path, "rb") as file:
        return file.read()


def run(program, folder, words, lines):
    """A run, which has to answer each line by ok."""
    before = time.time()
    at = [program, f"{folder}/blocks", f"{folder}/state", *words]
    ran = subprocess.run(at, input=PASSWORD + lines.encode(), stdout=subprocess.PIPE, check=True)
    print(f"{before:.9f} {' '.join(words)} {time.time():.9f}", file=sys.stderr)
    if lines and ran.stdout != b"ok\n" * lines.count("\n"):
        sys.exit(f"a line wasn't done: {ran.stdout}")
    return ran.stdout


def leave_waiting(program, folder, root):
    """The record of a session whose sync can't put the root's block."""
    file = f"{folder}/blocks/{root[:3]}/{root[3:]}"
    before = time.time()
    at = [program, f"{folder}/blocks", f"{folder}/state", "shell"]
    session = subprocess.Popen(at, stdin=subprocess.PIPE, stdout=subprocess.PIPE)
    session.stdin.write(PASSWORD + THIRD.encode())
    session.stdin.flush()
    answers = [session.stdout.readline() for _ in THIRD.splitlines()]
    os.rename(file, f"{folder}/root")
    os.mkdir(file)
    rest, _ = session.communicate(b"sync\n")
    os.rmdir(file)
    os.rename(f"{folder}/root", file)
    print(f"{before:.9f} waiting {time.time():.9f} {answers} {rest} {session.returncode}", file=sys.stderr)
    return read(f"{folder}/state/cryfs.localstate")


def blocks_in(folder):
    """The block files by the names of their ids."""
    found = {}
    for at, _, names in os.walk(f"{folder}/blocks"):
        found.update({os.path.basename(at) + it: read(f"{at}/{it}") for it in names if at != f"{folder}/blocks"})
    return found


def print_text(name, meaning, value):
    print(f'\n/// {meaning}\npub const {name}: &str =\n    "{value.hex()}";')


def print_files(name, meaning, files):
    lines = "\n".join(f"{it} {text.hex()}" for it, text in sorted(files.items()))
    print(f'\n/// {meaning}\npub const {name}: &str =\n    "{lines}";')


def main(program, folder):
    os.makedirs(folder)
    created = run(program, folder, ["create", "--blocksize", "256", "--scrypt-n", "16"], "")
    run(program, folder, ["shell"], FIRST)
    first = blocks_in(folder)
    run(program, folder, ["shell"], SECOND)
    second, record = blocks_in(folder), read(f"{folder}/state/cryfs.localstate")
    root = run(program, folder, ["info"], "").split()[3].decode()
    waiting = leave_waiting(program, folder, root)
    print("// A file system that was made by `golden.py` with the program as it was on", time.strftime("%Y-%m-%d."))
    print(f"// {created.decode().strip()}, root {root}")
    print_text("CONFIG", "The configuration's file.", read(f"{folder}/blocks/cryfs.config"))
    print_text("RECORD", "The local record after the second session.", record)
    print_text("WAITING", "That of the third session, whose list has what couldn't be put.", waiting)
    print_files("BLOCKS", "The block files after the second session: in each line an id, a blank and the file.", second)
    older = {it: first[it] for it in second if it in first}
    print_files("OLDER", "Those of the same ids as they were after the first session.", older)


if __name__ == "__main__":
    sys.exit(main(*sys.argv[1:]))
