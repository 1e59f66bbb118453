"""Mounts of the kernel: how one is made and taken away, what is mounted at a folder, and who uses it."""
import os
import re
import shutil
import socket
import stat
import subprocess

from telling import Refused, named

DEVICE = "/dev/fuse"
# What mounts for who isn't root: Debian's package fuse3 has it.
HELPER = "fusermount3"
KIND, SOURCE = "fuse.sergunad", "sergunad"
OPTIONS = "nosuid,nodev,fsname=sergunad,subtype=sergunad"
# Flags of mount(2) and of umount2(2).
NO_SETUID, NO_DEVICES = 2, 4
LAZILY = 2
INSTALL = "the package fuse3 has it (on Debian: apt install fuse3)"


def check_there():
    """Refuses where the kernel's device is missing, or what mounts."""
    if not os.path.exists(DEVICE):
        raise Refused(f"there is no {DEVICE}, by which the kernel asks: `modprobe fuse` as root makes it; a container has to be given it")
    if os.geteuid() and not shutil.which(HELPER):
        raise Refused(f"there is no {HELPER}, which mounts for who isn't root: {INSTALL}")


def mount(folder):
    """Mounts at a folder; the descriptor by which the kernel asks."""
    check_there()
    return mount_by_helper(folder) if os.geteuid() else mount_as_root(folder)


def mount_by_helper(folder):
    """The helper opens the device, mounts, and hands the descriptor over by a socket."""
    ours, theirs = socket.socketpair()
    with ours, theirs:
        environment = {**os.environ, "_FUSE_COMMFD": str(theirs.fileno())}
        ended = subprocess.run([HELPER, "-o", OPTIONS, "--", folder], env=environment, pass_fds=(theirs.fileno(),), stdin=subprocess.DEVNULL,
                               stdout=subprocess.DEVNULL, stderr=subprocess.PIPE, start_new_session=True, check=False)
        if ended.returncode:
            raise Refused(f"{named(folder)} can't be mounted: {why_of(ended.stderr)}")
        return socket.recv_fds(ours, 1, 1)[1][0]


def why_of(said):
    """The last line that the helper said, without its name."""
    lines = os.fsdecode(said).strip().splitlines() or ["no reason was given"]
    return lines[-1].removeprefix(f"{HELPER}: ")


def library():
    import ctypes
    return ctypes.CDLL(None, use_errno=True)


def fail_by_number():
    import ctypes
    number = ctypes.get_errno()
    raise OSError(number, os.strerror(number))


def mount_as_root(folder):
    """Mounts by mount(2). Nobody else may look into it: the program knows no users, and the kernel checks no modes there."""
    device = None
    try:
        device = os.open(DEVICE, os.O_RDWR | os.O_CLOEXEC)
        kind = stat.S_IFMT(os.stat(folder).st_mode)
        data = f"fd={device},rootmode={kind:o},user_id={os.getuid()},group_id={os.getgid()}"
        if library().mount(SOURCE.encode(), os.fsencode(folder), KIND.encode(), NO_SETUID | NO_DEVICES, data.encode()):
            fail_by_number()
        return device
    except OSError as why:
        if device is not None:
            os.close(device)
        raise Refused(f"{named(folder)} can't be mounted: {why.strerror}; a container has to be given {DEVICE} and the right to mount") from None


def begin_unmount(folder, lazily, said):
    """A process that takes the mount away, and says on this file why it can't. Lazily: the name at once, the rest when all is closed."""
    process = os.fork()
    if process:
        return process
    try:
        os.setsid()
        os.dup2(said, 2)
        if os.geteuid():
            os.execvp(HELPER, [HELPER, "-u", *(["-z"] if lazily else []), "--", folder])
        if library().umount2(os.fsencode(folder), LAZILY if lazily else 0):
            fail_by_number()
        os._exit(0)
    except OSError as why:
        os.write(said, os.fsencode(f"{why.strerror}\n"))
    finally:
        os._exit(1)


def unmount_words(folder, lazily=False):
    """The words of a shell that unmount."""
    import shlex
    helper = HELPER if os.geteuid() or shutil.which(HELPER) else "umount"
    options = {True: ["-l"] if lazily else [], False: ["-uz" if lazily else "-u"]}[helper == "umount"]
    return shlex.join([helper, *options, folder])


def mounted_at(folder):
    """What is mounted at a folder on top, as the kernel numbers it, where that is one of ours. Nothing is asked of it for this."""
    with open("/proc/self/mountinfo", "rb") as file:
        rows = [line.split() for line in file]
    here = [row for row in rows if unescaped(row[4]) == os.fsencode(folder)]
    if not here or os.fsencode(KIND) not in here[-1]:
        return None
    return here[-1][0], here[-1][2]


def unescaped(word):
    return re.sub(rb"\\([0-7]{3})", lambda it: bytes([int(it[1], 8)]), word)


def users_of(folder):
    """The processes that have something open at a folder or below, as far as this one may see: names with their numbers."""
    found = []
    for number in filter(str.isdigit, os.listdir("/proc")):
        if any(lies_at(it, folder) for it in links_of(f"/proc/{number}")):
            found.append(f"{name_of(number)} ({number})")
    return found


def links_of(process):
    """Where a process is, and what it has open. The links are read alone: what they lead to isn't asked."""
    links = [f"{process}/{it}" for it in ("cwd", "root", "exe")]
    try:
        links += [f"{process}/fd/{it}" for it in os.listdir(f"{process}/fd")]
    except OSError:
        pass
    for link in links:
        try:
            yield os.readlink(link)
        except OSError:
            continue


def lies_at(path, folder):
    return path == folder or path.startswith(folder + "/")


def name_of(number):
    try:
        with open(f"/proc/{number}/comm", encoding="utf-8", errors="replace") as file:
            return file.read().strip()
    except OSError:
        return "a process"
