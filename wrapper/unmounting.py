"""Takes a mount away beside what goes on: tried again while it is in use, or lazily, which takes its name away at once."""
import os
import time

import mounts
import running
from telling import named, say

# How soon a mount that is in use is tried again: at first what uses it may be the tick alone.
AT_ONCE, AGAIN = 0.2, 1
# What a further interrupt does.
STOPS = "another interrupt stops it at once"


class Unmounting:
    """A mount at a folder, and how far it is with taking it away."""

    def __init__(self, folder):
        self.folder, self.mount = folder, mounts.mounted_at(folder)
        self.is_gone = self.is_lazy = False
        # The process that tries, where it says why it can't, when to try again, how often that was in vain, who had something open.
        self.attempt = self.why = self.again_at = None
        self.failures, self.users = 0, []

    def is_mounted(self):
        return mounts.mounted_at(self.folder) == self.mount

    def begin(self, lazily):
        self.again_at, self.is_lazy = None, lazily
        self.users = mounts.users_of(self.folder) if lazily else []
        self.why = running.in_memory()
        self.attempt = mounts.begin_unmount(self.folder, lazily, self.why)

    def patience(self):
        """How many seconds there is nothing to do; None where there is nothing at all."""
        return None if self.again_at is None else max(0, self.again_at - time.monotonic())

    def go_on(self):
        """Tries again where that is due."""
        if self.patience() == 0:
            self.begin(lazily=False)

    def look(self, how=os.WNOHANG):
        """What came of it, where it was begun and is done, or is waited for with 0."""
        if self.attempt is None or not os.waitpid(self.attempt, how)[0]:
            return
        self.attempt = None
        why = mounts.why_of(os.pread(self.why, 4096, 0))
        os.close(self.why)
        self.is_gone = not self.is_mounted()
        if not self.is_gone:
            self.failures += 1
            self.again_at = time.monotonic() + (AT_ONCE if self.failures == 1 else AGAIN)
            if self.failures == 2:
                self.tell_use(why)
        elif self.users:
            say(f"{named(self.folder)} is taken away, and works on for {told(self.users)} until all there is closed; {STOPS}")
        else:
            say(f"unmounted, and closing; {STOPS}")

    def tell_use(self, why):
        """Says who keeps the mount from being taken away, and how it goes all the same."""
        users = mounts.users_of(self.folder)
        say(f"{named(self.folder)} can't be taken away yet: {why}{f'; it is used by {told(users)}' if users else ''}")
        say(f"it ends as soon as nothing is open there; another interrupt, or {mounts.unmount_words(self.folder, True)}, takes it away at once")

    def clear(self):
        """Takes away what is left where nobody answers any more, and waits for that."""
        self.look(0)
        if self.is_mounted():
            self.begin(lazily=True)
            os.waitpid(self.attempt, 0)


def told(users):
    return ", ".join(users[:3]) + (" and others" if len(users) > 3 else "")
