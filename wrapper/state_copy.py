"""A copy of STATE's record in a folder of another place, which each run brings up to date before its status is given."""
import contextlib
import errno
import fcntl
import os
import struct
import time
from collections import namedtuple

from folders import lies_within, same_folder
from looking import MARK_AT, NEW_RECORD, OLD_RECORD, RECORD
from telling import Refused, named, say, write_whole

# How a run ends that was done itself, and whose record wasn't copied.
NOT_COPIED, TEXT = 17, "state not copied"
# Of a record, from the id of the file system on: its client, how many blocks it knows, and each of these.
CLIENT_AT, COUNT_AT, ROWS_AT = 80, 84, 92
ROW = struct.Struct("<16sQB")
LENGTH_OF_LIST = 8
# The seconds that a run waits for another one's copy.
PATIENCE = 10

Record = namedtuple("Record", "is_marked system client rows")


def record_of(content):
    """What a record tells; None where the bytes are none, or are cut."""
    start = {OLD_RECORD: MARK_AT + 1, NEW_RECORD: MARK_AT + 2}.get(content[:MARK_AT])
    if start is None or len(content) < start + ROWS_AT:
        return None
    client, count = struct.unpack_from("<IQ", content, start + CLIENT_AT)
    first, last = start + ROWS_AT, start + ROWS_AT + count * ROW.size
    if len(content) < last + LENGTH_OF_LIST:
        return None
    return Record(content[MARK_AT] != 0, content[start : start + 16], client, content[first:last])


def blocks_of(record):
    """How far each block is: its version, and whether it was removed at that one."""
    return {of: (version, not is_live) for of, version, is_live in ROW.iter_unpack(record.rows)}


def is_ahead(one, other):
    """Whether a record knows what the other doesn't know yet."""
    if one.client != other.client:
        return one.client > other.client
    if one.rows == other.rows:
        return False
    known = blocks_of(other)
    return any(known.get(of, (0, False)) < seen for of, seen in blocks_of(one).items())


def misfit(record, copy):
    """Why a record must not take the place of a copy; nothing where it may."""
    if copy is None:
        return "what is there is no record, or is cut: move it away"
    if copy.system != record.system:
        return "it has the record of another file system: name another folder"
    if not is_ahead(copy, record):
        return None
    if is_ahead(record, copy):
        return "STATE and this copy were both changed since they were one, as by two machines: see \"The alarm\" in USING.md"
    return "STATE is older than this copy: put the copy back, as USING.md tells where STATE is lost"


def read(path, above=None):
    """The bytes of a file, which is no link; None where there is none."""
    try:
        file = os.open(path, os.O_RDONLY | os.O_NOFOLLOW | os.O_NONBLOCK | os.O_CLOEXEC, dir_fd=above)
    except FileNotFoundError:
        return None
    with os.fdopen(file, "rb") as file:
        return file.read()


def refuse(folder, why):
    raise Refused(f"--state-copy {named(folder)}: {why}")


def check(call):
    """Refuses a folder that can't have the copy, before anything is run."""
    folder = call.state_copy
    if os.path.islink(folder):
        refuse(folder, "it is a link: name the folder itself")
    for it, what in ((call.blocks, "BLOCKS"), (call.state, "STATE")):
        if same_folder(it, folder) or lies_within(folder, it):
            refuse(folder, f"it is {what} or lies in it: name a folder of another disk")
    if call.looks() and not os.path.lexists(folder):
        # (what only looks does so where the disk isn't at hand too)
        say(f"--state-copy {named(folder)} isn't there: nothing is copied")
        call.state_copy = None
        return
    try:
        if call.command == "create":
            check_new(folder)
        else:
            check_copy(folder, call)
    except OSError as why:
        refuse(folder, why.strerror)


def check_new(folder):
    """Refuses what can't have the copy of a file system that is being made."""
    if not os.path.isdir(os.path.dirname(os.path.realpath(folder))):
        refuse(folder, "the folder that it would be made in isn't there")
    if os.path.isdir(folder) and read(os.path.join(folder, RECORD)) is not None:
        refuse(folder, "it has the record of a file system: name another folder")


def check_copy(folder, call):
    """Refuses a folder that isn't there, and a copy that STATE's record must not take the place of."""
    if not os.path.isdir(folder):
        refuse(folder, "it isn't there: bring its disk back, or make it by mkdir -m 700")
    copy = read(os.path.join(folder, RECORD))
    if copy is None:
        return
    # (behind the copy, so that a run at the same time can't make it look older)
    content = read(os.path.join(call.state, RECORD))
    record = content and record_of(content)
    why = record and content != copy and misfit(record, record_of(copy))
    if why:
        refuse(folder, why)


def bring(call):
    """Brings the copy up to date, where one is wanted. Why that failed; nothing where it is as it has to be."""
    if not call.state_copy or not call.takes_password():
        return None
    try:
        why = copied(call)
    except OSError as problem:
        why = problem.strerror
    return f"--state-copy {named(call.state_copy)}: {why}: the run itself was done, and STATE has it" if why else None


def copied(call):
    """Copies the record where it isn't marked and the copy is another one; gives why that mustn't be."""
    if read(os.path.join(call.state, RECORD)) is None:
        return None
    if call.command == "create":
        with contextlib.suppress(FileExistsError):
            os.mkdir(call.state_copy, 0o700)
    folder = os.open(call.state_copy, os.O_RDONLY | os.O_DIRECTORY | os.O_NOFOLLOW | os.O_CLOEXEC)
    try:
        take_turn(folder)
        content, copy = read(os.path.join(call.state, RECORD)), read(RECORD, folder)
        record = record_of(content or b"")
        if record is None or record.is_marked or content == copy:
            return None
        why = None if copy is None else misfit(record, record_of(copy))
        if not why:
            replace(folder, content)
            if copy is None and call.command != "create":
                say(f"{named(call.state_copy)} had no copy of STATE, and has one now")
        return why
    finally:
        os.close(folder)


def take_turn(folder):
    """Waits until no other run copies into the folder, where its disk can tell: else an older record could come last."""
    for _ in range(10 * PATIENCE):
        try:
            return fcntl.flock(folder, fcntl.LOCK_EX | fcntl.LOCK_NB)
        except BlockingIOError:
            time.sleep(0.1)
        except OSError:
            return None
    raise OSError(errno.EBUSY, "another run copies into it")


def replace(folder, content):
    """Gives the folder this record: beside the old one, flushed, renamed, and the name flushed."""
    beside = f"{RECORD}.new"
    with contextlib.suppress(FileNotFoundError):
        os.unlink(beside, dir_fd=folder)
    file = os.open(beside, os.O_WRONLY | os.O_CREAT | os.O_EXCL | os.O_NOFOLLOW | os.O_CLOEXEC, 0o600, dir_fd=folder)
    try:
        try:
            write_whole(file, content)
            os.fsync(file)
        finally:
            os.close(file)
    except OSError:
        os.unlink(beside, dir_fd=folder)
        raise
    os.rename(beside, RECORD, src_dir_fd=folder, dst_dir_fd=folder)
    try:
        os.fsync(folder)
    except OSError as why:
        # (some file systems flush no folders)
        if why.errno != errno.EINVAL:
            raise
