"""The helper that the program asks for a flush: a process that has the system write out all of the disk of BLOCKS at once.

The program can flush one file after the other only, and thousands of flushes take minutes where one takes a second. It is lent
three files: the folder, whose numbers it compares with the one that it holds, and two pipes. What it asks and what is answered
are 16 bytes, a word in 8 and its number in 8. Where no helper is lent, and where this answers anything but that it is done, the
program works as it does alone, or saves no record."""
import os
import re
import threading

import telling
from beside import go_beside, numbered, pipe

# The program's descriptors.
FOLDER, REQUESTS, ANSWERS = 5, 6, 7
LENGTH = 16
FLUSH, DONE, NOT = (word.ljust(8, b"\0") for word in (b"flush", b"done", b"not"))
# A disk that hasn't written all in so many seconds is answered for: else the program would wait forever.
LIMIT = 1800
# The systems of files of which it is known that syncfs(2) has the disk write all, as fsync(2) does, and tells what it couldn't. Behind
# others may be another machine, which isn't asked.
KINDS = ("ext2", "ext3", "ext4", "xfs", "btrfs")
# From this Linux on syncfs tells what couldn't be written since the folder was opened.
LINUX = (5, 8)
# The environment's word that has each file flushed by itself, for measurements, and what it says then.
ASKED, EACH = "CRYFS_FLUSH", "each"


def tells_errors(release):
    """Whether a Linux of this release is new enough."""
    return tuple(map(int, re.findall(r"\d+", release)[:2])) >= LINUX


def kind_of(folder):
    """The kind of the file system that an open folder is in, as the system names it."""
    with open(f"/proc/self/fdinfo/{folder}", encoding="ascii") as file:
        mount = re.search(r"^mnt_id:\s*(\d+)$", file.read(), re.MULTILINE)[1]
    with open("/proc/self/mountinfo", encoding="utf-8", errors="replace") as file:
        for row in file:
            if row.split(" ", 1)[0] == mount:
                return row.partition(" - ")[2].split(" ", 1)[0]
    return ""


def flushing_call():
    """The system's call, where python can make it."""
    import ctypes
    return ctypes.CDLL(None, use_errno=True).syncfs


def open_folder(blocks):
    """The folder, open, and the call; None where it is to be flushed file by file."""
    if os.environ.get(ASKED) == EACH or not tells_errors(os.uname().release):
        return None
    folder = None
    try:
        folder = numbered(os.open(blocks, os.O_RDONLY | os.O_DIRECTORY | os.O_CLOEXEC))
        if kind_of(folder) in KINDS:
            return folder, flushing_call()
    except (OSError, ImportError, AttributeError, TypeError):
        pass
    if folder is not None:
        os.close(folder)
    return None


def lend(blocks):
    """Begins the helper of a folder. Gives the files that the program is lent, by their numbers there: none where it does without."""
    opened = open_folder(blocks)
    if not opened:
        return {}
    folder, call = opened
    asked, requests = pipe()
    answers, told = pipe()
    if os.fork():
        os.close(asked)
        os.close(told)
        return {FOLDER: folder, REQUESTS: requests, ANSWERS: answers}
    try:
        go_beside(folder, asked, told)
        serve(asked, told, lambda: call(folder) == 0)
    finally:
        os._exit(0)


def let_go(lent):
    """Closes here what was lent to the program: else neither it nor the helper would see that the other one ended."""
    for it in lent.values():
        os.close(it)


def serve(asked, told, flush):
    """Answers each request, until the program has ended."""
    while len(request := next_request(asked)) == LENGTH:
        word, number = request[:8], request[8:]
        done = word == FLUSH and ends_well(flush)
        try:
            telling.write_whole(told, (DONE if done else NOT) + number)
        except OSError:
            return


def next_request(asked):
    """The next bytes of a request; fewer at the end."""
    request = b""
    while len(request) < LENGTH and (piece := os.read(asked, LENGTH - len(request))):
        request += piece
    return request


def ends_well(flush):
    """Whether the flush was done in time, and nothing is lost."""
    done = []
    waiting = threading.Thread(target=lambda: done.append(flush()), daemon=True)
    waiting.start()
    waiting.join(LIMIT)
    return done == [True]
