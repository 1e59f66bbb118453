"""Processes that go on beside this one, with no file but those that they need."""
import contextlib
import fcntl
import os
import signal

ENDING = (signal.SIGINT, signal.SIGTERM, signal.SIGHUP)
# What a terminal or the system's end sends, and such a process doesn't heed. So it goes on where nobody hears it.
UNHEEDED = (*ENDING, signal.SIGQUIT, signal.SIGTSTP, signal.SIGPIPE)
# Lower numbers are those of the files that a program is given.
BESIDE = 10


def numbered(file):
    """The same file under a number that is none of the program's own."""
    higher = fcntl.fcntl(file, fcntl.F_DUPFD_CLOEXEC, BESIDE)
    os.close(file)
    return higher


def pipe():
    return tuple(map(numbered, os.pipe()))


def leave_streams():
    """Lets go of the caller's input, output and errors."""
    nowhere = os.open(os.devnull, os.O_RDWR)
    for it in (0, 1, 2):
        os.dup2(nowhere, it)
    os.close(nowhere)


def go_beside(*files):
    """What a process does first that goes on beside this one, and behind it: it heeds no signals, and has no other files than these."""
    signal.set_wakeup_fd(-1)
    for it in UNHEEDED:
        signal.signal(it, signal.SIG_IGN)
    leave_streams()
    for it in map(int, os.listdir("/proc/self/fd")):
        if it > 2 and it not in files:
            # (one of them was for the list itself)
            with contextlib.suppress(OSError):
                os.close(it)
