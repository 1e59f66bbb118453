"""Mounts the file system at a folder: what is refused before, and whether it is watched here or goes on in the background."""
import os
import shlex
import signal
import syslog

import mounts
import running
from beside import go_beside, leave_streams, pipe
from folders import lies_within, real, same_folder
from passwords import die_of
from serving import Serving
from telling import Refused, named, say


def check(call):
    """Refuses a folder at which nothing can be mounted, and one that would hide a folder of the run, or lies in one."""
    folder = real(call.rest[1])
    if mounts.mounted_at(folder):
        raise Refused(f"{named(folder)} is mounted already; where its run has ended, as by kill -9, this clears it: {mounts.unmount_words(folder)}")
    for name, other in (("BLOCKS", call.blocks), ("STATE", call.state), ("the folder of --state-copy", call.state_copy)):
        if other:
            check_apart(folder, name, other)
    check_folder(folder)
    mounts.check_there()


def check_apart(folder, name, other):
    if same_folder(folder, other):
        raise Refused(f"FOLDER and {name} are one folder, {named(folder)}: name another one, which is empty")
    if lies_within(folder, other):
        raise Refused(f"FOLDER lies in {name}: {named(folder)} is below {named(real(other))}. Name another FOLDER")
    if lies_within(other, folder):
        raise Refused(f"{name} lies in FOLDER: {named(real(other))} is below {named(folder)}, and the mount would hide it. Name another FOLDER")


def check_folder(folder):
    """Refuses what isn't an empty folder of the caller's own."""
    name = named(folder)
    try:
        numbers = os.stat(folder)
        is_empty = not os.listdir(folder)
    except FileNotFoundError:
        raise Refused(f"there is no folder {name}: make it first, {shlex.join(['mkdir', folder])}") from None
    except NotADirectoryError:
        raise Refused(f"{name} is no folder: name one that is empty") from None
    except OSError as why:
        raise Refused(f"FOLDER, {name}, can't be looked at: {why.strerror}") from None
    if os.geteuid() not in (0, numbers.st_uid):
        raise Refused(f"{name} isn't yours: name an empty folder of your own")
    if not is_empty:
        raise Refused(f"{name} isn't empty, and the mount would hide what is in it: name an empty folder")


def log_errors():
    """Has a process of its own write what goes to standard error to the system's log: in the background nobody sees it."""
    lines, errors = pipe()
    if os.fork():
        os.close(lines)
        os.dup2(errors, 2)
        os.close(errors)
        return
    try:
        go_beside(lines)
        syslog.openlog("cryfs", syslog.LOG_PID)
        with os.fdopen(lines, encoding="utf-8", errors="replace") as file:
            for line in file:
                syslog.syslog(syslog.LOG_ERR, line.rstrip("\n"))
    finally:
        os._exit(0)


def serve(program, call, folder, first, announce):
    """Mounts, and ends as the program does; the announcing comes once the mount stands."""
    serving = Serving(call, folder)
    serving.start(program, first)
    serving.watch(lambda: announce(serving))
    running.end(serving.end(), serving.said, call)


def say_mounted(folder, ends):
    if os.isatty(2):
        say(f"mounted at {named(folder)}: {ends} ends it")


def run(program, call, first):
    """Mounts the folder that the call names, until it is unmounted; or in the background, as soon as the mount stands."""
    folder = real(call.rest[1])
    call.make_absolute()
    os.chdir("/")
    if call.stays_behind():
        return run_behind(program, call, folder, first)
    return serve(program, call, folder, first, lambda _: say_mounted(folder, f"Ctrl-C or {mounts.unmount_words(folder)}"))


def run_behind(program, call, folder, first):
    """Mounts by a process that stays behind; this one ends once the mount stands, or as that one does."""
    stood, stands = pipe()
    process = os.fork()
    if process:
        os.close(stands)
        return wait_for(process, stood)
    os.close(stood)

    def announce(serving):
        say_mounted(folder, mounts.unmount_words(folder))
        os.setsid()
        leave_streams()
        log_errors()
        try:
            os.write(stands, b".")
        except BrokenPipeError:
            # (whoever waited for it was stopped)
            serving.signals.append(signal.SIGTERM)
        os.close(stands)

    return serve(program, call, folder, first, announce)


def wait_for(process, stood):
    """Waits until the mount stands, or the process has ended: its status."""
    try:
        if os.read(stood, 1):
            return 0
    except KeyboardInterrupt:
        os.kill(process, signal.SIGTERM)
    status = running.wait(process)
    return die_of(-status) if status < 0 else status
