"""The program that serves a mounted folder, as it is watched from mounting to its end.

It gets the kernel's descriptor and opens the file system first. Who looks at the folder meanwhile waits for that. So all here
works on without it: no process but the ticking one looks at the folder, and none but the program has that descriptor."""
import contextlib
import os
import select
import signal

import mounts
import running
import telling
from beside import ENDING, UNHEEDED, go_beside, numbered, pipe
from telling import named, say
from unmounting import Unmounting

# A tick each so many seconds: behind one the program keeps what was changed some time before.
TICK = 5
# The program's descriptors of the password's line, and of what it tells when it is open: the first answer tells more. The others here
# have greater numbers, so that none gets these.
PASSWORD, OPENED = 3, 4
VIOLATION = b"violation "


def begin_ticking(folder, lives, stood):
    """Begins a process that asks for the folder's numbers now and then until the program has ended, and says when the first answer came.
    Where the program doesn't answer it waits alone. It goes on where this process is killed."""
    if os.fork():
        return
    try:
        go_beside(lives, stood)
        has_answered = False
        while True:
            if answers(folder) and not has_answered:
                has_answered = True
                # (this process may be all that is left)
                with contextlib.suppress(BrokenPipeError):
                    os.write(stood, b".")
            if select.select([lives], [], [], TICK)[0]:
                return
    finally:
        os._exit(0)


def answers(folder):
    """Whether the folder tells its numbers, which the kernel never does itself."""
    try:
        os.statvfs(folder)
        return True
    except OSError:
        return False


class Serving:
    """The program that serves a folder, what it said, and how far its end is."""

    def __init__(self, call, folder):
        self.call, self.folder = call, folder
        # What it said that isn't passed on yet; the signals that came, how many of them were heeded; whether the mount was announced.
        self.said, self.signals, self.heeded, self.stands = b"", [], 0, False
        self.woken, waker = pipe()
        os.set_blocking(waker, False)
        signal.set_wakeup_fd(waker, warn_on_full_buffer=False)
        for it in ENDING:
            # (what the caller ignores, as nohup does, ends nothing)
            if signal.getsignal(it) != signal.SIG_IGN:
                signal.signal(it, lambda number, _: self.signals.append(number))
        signal.signal(signal.SIGCHLD, lambda *_: None)

    def start(self, program, first):
        """Mounts, and begins the program and the process that ticks."""
        device = numbered(mounts.mount(self.folder))
        self.unmounting = Unmounting(self.folder)
        try:
            self.begin(program, first, device)
        except BaseException:
            self.unmounting.clear()
            raise

    def begin(self, program, first, device):
        self.errors, errors = pipe()
        os.set_blocking(self.errors, False)
        self.stood, stood = pipe()
        # Its other end is the program's alone, so that it ends with the program.
        self.lives, held = pipe()
        os.set_inheritable(held, True)
        password, nowhere = numbered(running.in_memory(first)), numbered(os.open(os.devnull, os.O_WRONLY))
        streams = {0: device, 1: device, 2: errors, PASSWORD: password, OPENED: nowhere}
        # (it ends with the mount, and heeds no signals)
        self.process = running.start(program, self.call, streams, UNHEEDED)
        # Held open here, they would hide the program's end from the kernel, or from this process.
        for it in (device, errors, held, password, nowhere):
            os.close(it)
        begin_ticking(self.folder, self.lives, stood)
        os.close(stood)

    def watch(self, announce):
        """Waits until the program has ended, and does what comes up."""
        # (in this order, so that a mount which stood before a violation is taken for one that stands)
        deeds = {self.stood: lambda: self.stand(announce), self.errors: self.hear, self.woken: lambda: os.read(self.woken, 65536)}
        ready = []
        while self.lives not in ready:
            wanted = [it for it in (self.lives, self.errors, self.woken, self.stood) if it is not None]
            ready = select.select(wanted, [], [], self.unmounting.patience())[0]
            for it, deed in deeds.items():
                if it in ready:
                    deed()
            self.unmounting.look()
            self.unmounting.go_on()
            self.heed()
        while self.errors is not None and self.hear():
            pass

    def stand(self, announce):
        """The first request was answered, or the program ended before."""
        if os.read(self.stood, 1) and not self.signals:
            self.stands = True
            announce()
        os.close(self.stood)
        self.stood = None

    def hear(self):
        """Keeps what the program says for the end; a violation is told at once, and what to do. Whether there was anything."""
        try:
            came = os.read(self.errors, 65536)
        except BlockingIOError:
            return False
        if not came:
            os.close(self.errors)
            self.errors = None
            return False
        lines = (self.said + came).split(b"\n")
        told = [at for at, line in enumerate(lines[:-1]) if line.removeprefix(b"cryfs: ").startswith(VIOLATION)]
        cut = told[-1] + 1 if told else 0
        running.shown(b"".join(it + b"\n" for it in lines[:cut]))
        self.said = b"\n".join(lines[cut:])
        if told:
            # (by which a cause of the status is chosen)
            self.call.said = os.fsdecode(lines[told[-1]])
            self.alarm()
        return True

    def alarm(self):
        """What to do where the program met a violation. Before the mount stands it is taken away: nothing would ever be answered."""
        if not self.stands:
            self.unmounting.begin(lazily=True)
            return
        say(f"BLOCKS gave something else than was written last: from now on each request to {named(self.folder)} is refused, and the kernel may "
            f"still show what it read before. End it: {mounts.unmount_words(self.folder)}")
        say(f'then see "The alarm" in {telling.page()}: over a copy of STATE, check --all tells which files it is about')

    def heed(self):
        """Goes a step on for a signal: the mount is taken away, lazily for a second one; behind that an interrupt stops the program."""
        if len(self.signals) == self.heeded:
            return
        number = self.signals[self.heeded]
        self.heeded += 1
        if not self.unmounting.is_gone:
            # (before it stands nothing is open there but what waits for that)
            self.unmounting.begin(lazily=self.heeded > 1 or not self.stands)
        elif number == signal.SIGINT:
            # (the others may come more than once for one end, as that of a terminal)
            os.kill(self.process, signal.SIGKILL)

    def end(self):
        """The program's status, or the signal's by which it ended or never stood. A mount that it left is taken away."""
        self.unmounting.clear()
        status = running.wait(self.process)
        if self.signals and (status == -signal.SIGKILL or status == 0 and not self.stands):
            return -self.signals[0]
        if status == 0 and not self.stands:
            say(f"{named(self.folder)} was unmounted before the file system was open")
            return telling.NOT_RUN
        return status
