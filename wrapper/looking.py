"""What a status doesn't tell a person: whether another run holds a folder, what room its disk has, whether STATE is marked, and which
block files it takes; and who may read a STATE that was made."""
import fcntl
import os

RECORD = "cryfs.localstate"
LOCK = "cryfs.lock"
# How a record begins in its two forms; the second one has the mark behind it, and then its least format.
OLD_RECORD, NEW_RECORD = b"cryfs.localstate;1\0", b"cryfs.localstate;2\0"
MARK_AT = len(NEW_RECORD)
LEAST_AT = MARK_AT + 1
FORMATS = {
    1: "block files of format 1, of an older version, are still taken: migrate writes each block anew",
    2: "block files of format 2, the newest, are taken and no older ones: migrate has nothing to do",
}


def folder_of(status, call):
    """What the texts call the folder that a status speaks of, the folder, and what a run that uses it holds; None of other statuses."""
    return {6: ("BLOCKS", call.blocks, call.blocks), 7: ("STATE", call.state, os.path.join(call.state, LOCK))}.get(status)


def is_held(path):
    """Whether a run holds its lock; None where that can't be told."""
    try:
        file = os.open(path, os.O_RDONLY | os.O_NONBLOCK)
    except OSError:
        return None
    try:
        fcntl.flock(file, fcntl.LOCK_SH | fcntl.LOCK_NB)
    except BlockingIOError:
        return True
    except OSError:
        return None
    finally:
        os.close(file)
    return False


def is_used(status, call):
    """Whether another run uses the folder of a status now; None where there is none, or that can't be told."""
    seen = folder_of(status, call)
    return is_held(seen[2]) if seen else None


def told_room(status, call):
    """That nobody uses the folder of a status, and what room it has; nothing where it can't be looked at."""
    name, folder, _ = folder_of(status, call)
    try:
        disk = os.statvfs(folder)
    except OSError:
        return []
    return [f"no other run uses {name} now, and its disk has {disk.f_bavail * disk.f_frsize:,} bytes free"]


def narrow(state):
    """Leaves a folder that was made to its owner alone, where its disk has rights."""
    try:
        os.chmod(state, 0o700)
    except OSError:
        pass


def start_of(state):
    """How the record begins; nothing where it can't be read."""
    try:
        with open(os.path.join(state, RECORD), "rb") as file:
            return file.read(LEAST_AT + 1)
    except OSError:
        return b""


def is_marked(state):
    """Whether the record has the mark of a violation; None where that can't be told."""
    start = start_of(state)
    return start[MARK_AT] == 1 if start.startswith((OLD_RECORD, NEW_RECORD)) and len(start) > MARK_AT else None


def told_formats(state):
    """Which block files the record takes; nothing where it can't be read."""
    start = start_of(state)
    least = 1 if start.startswith(OLD_RECORD) else start[LEAST_AT] if start.startswith(NEW_RECORD) and len(start) > LEAST_AT else 0
    return [FORMATS[least]] if least in FORMATS else []
