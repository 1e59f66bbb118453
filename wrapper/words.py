"""What the words of a call ask for."""
import os
import shlex
import sys

import folders
import forms
import hints
from looking import is_marked
from names import readable
from telling import USAGE, Refused

# Commands that may write or remove many files of BLOCKS.
WRITES = ("import", "update", "put", "rm", "truncate", "shell", "generate", "migrate", forms.MOUNT)
# Commands that change nothing in the tree.
LOOKS = ("info", "check", "export", "get", "stat", "read", "readlink", *forms.LISTS)
PASSWORD_OPTIONS = ("--password-file", "--password-command")
STATE_COPY = "--state-copy"
# Has an answer that is no reply end with a status of its own.
STRICT = "--strict"
# The words that may stand before BLOCKS.
OPTIONS = (*PASSWORD_OPTIONS, STATE_COPY, forms.NAMES, STRICT, "--help", "--version")


class Call:
    """A call: the two folders, the command and its words, where the password comes from, and where STATE's record is copied to."""

    def __init__(self, words, environment):
        self.source = self.was_marked = self.state_copy = self.names = None
        self.is_strict = bool(environment.get("CRYFS_STRICT"))
        # Whether the password's line ends as those of Windows do, and how the answer began that ended a session, where that is seen.
        self.has_return, self.said = False, None
        # Whether STATE is made by this run.
        self.makes_state = False
        left = self.take_options(list(words))
        self.blocks, self.state, rest = folders.split_folders(left, environment, forms.COMMANDS)
        # The command and its words, but for the one by which a copy keeps modes and times.
        self.rest, self.keeps_times = forms.split_times(rest)
        self.command = self.rest[0]
        if self.takes_plain():
            self.rest = forms.exact(self.rest)
        forms.check_command(self.rest)
        if self.takes_plain() and self.is_line():
            # (in a script the program answers them)
            forms.check_paths(self.rest)
        if self.source and not self.takes_password():
            raise Refused(f"{self.command} takes no password", USAGE)
        if self.state_copy and not self.uses_state():
            raise Refused(f"{self.command} changes no STATE", USAGE)
        copy = self.state_copy or environment.get("CRYFS_STATE_COPY")
        self.state_copy = (copy.rstrip("/") or "/") if copy and self.uses_state() else None
        if not self.source and environment.get("CRYFS_PASSWORD_FILE") and self.takes_password():
            self.source = PASSWORD_OPTIONS[0], environment["CRYFS_PASSWORD_FILE"]

    def take_options(self, words):
        """The words after those that say how it is run, as where the password comes from."""
        while words and words[0].startswith("--"):
            name, mark, value = words.pop(0).partition("=")
            if name == STRICT and not mark:
                self.is_strict = True
                continue
            if name not in (*PASSWORD_OPTIONS, STATE_COPY, forms.NAMES):
                raise Refused(f"no option {name}{hints.meant(name, OPTIONS)}: see cryfs --help", USAGE)
            if not mark and not words:
                raise Refused(f"{name} needs a word after it", USAGE)
            self.take_option(name, value if mark else words.pop(0))
        return words

    def take_option(self, name, value):
        if name == forms.NAMES:
            if self.names or value not in (forms.PLAIN, forms.EXACT):
                raise Refused(f"{name} stands once, with {forms.PLAIN} or {forms.EXACT} after it", USAGE)
            self.names = value
        elif name == STATE_COPY:
            if self.state_copy or not value:
                raise Refused(f"{name} stands once, with a folder after it", USAGE)
            self.state_copy = value
        elif self.source:
            raise Refused("the password comes from one place: one of --password-file and --password-command, once", USAGE)
        else:
            self.source = name, value

    def takes_password(self):
        return self.command != "trial"

    def uses_state(self):
        """Whether it needs the record."""
        return self.takes_password() and self.command != forms.LOOK

    def takes_plain(self):
        """Whether its paths may be typed as people write them. Such a word that lines take too is the same there."""
        return self.names == forms.PLAIN or (self.names is None and any(map(os.isatty, (0, 1))))

    def shows_plain(self):
        """Whether names are shown as people read them."""
        return self.names == forms.PLAIN or (self.names is None and os.isatty(1) and sys.getfilesystemencoding() == "utf-8")

    def answers_names(self):
        """Whether the program's answers may have names in them."""
        return self.is_line() or self.takes_lines() or self.command in ("import", "export", "put", "check")

    def counts_in_words(self):
        """Whether a person looks on, and gets counts in words."""
        return os.isatty(1) and (self.command in (*forms.COPIES, "put", "check", "migrate") or self.removes_tree())

    def copies(self):
        """Whether a folder of this machine is one of its words, which is copied or filled."""
        return self.command in forms.COPIES

    def is_brief(self):
        """Whether a check tells of no block that is as it has to be."""
        return self.command == "check" and "--quiet" in self.rest

    def is_line(self):
        """Whether the program answers one line for it."""
        return (self.command == forms.LOOK and not self.looks_at_file()) or (self.command in forms.LINES and not self.asks_lines())

    def tells_how_far(self):
        """Whether it may take long, and says how far it is as it goes on."""
        return self.command in (*forms.COPIES, "check", "migrate")

    def takes_lines(self):
        """Whether it answers lines of its input."""
        return self.command == "shell" or self.rest == ["trial"]

    def takes_bytes(self):
        """Whether its input is the bytes of a file."""
        return self.command == "put"

    def reads_beside(self):
        """Whether its input holds more than the password by which it opens."""
        return self.takes_lines() or self.takes_bytes() or self.command == "passwd"

    def removes_tree(self):
        """Whether it removes what is at a path with all below it."""
        return self.command == "rm" and self.rest[1:2] == [forms.WHOLE]

    def updates(self):
        """Whether it brings a directory to what a folder of this machine has."""
        return self.command == "update"

    def mounts(self):
        """Whether the kernel asks it, at a folder of this machine."""
        return self.command == forms.MOUNT

    def stays_behind(self):
        """Whether a mount goes on in the background."""
        return "--background" in self.rest[2:]

    def writes_blocks(self):
        """Whether it may write or remove many files of BLOCKS."""
        return self.command in WRITES and not self.rehearses()

    def make_absolute(self):
        """Gives its folders names that hold in any folder."""
        here = os.getcwd()
        self.blocks, self.state = os.path.join(here, self.blocks), os.path.join(here, self.state)
        self.state_copy = self.state_copy and os.path.join(here, self.state_copy)

    def program(self):
        """The program that it is for, by its crate."""
        return "cryfs_mount" if self.mounts() else "cryfs"

    def lists(self):
        """Whether it lists a tree by words of the wrapper's own."""
        return forms.is_list(self.rest)

    def looks_at_file(self):
        """Whether the bytes of a file are got without the record."""
        return self.rest[:2] == [forms.LOOK, forms.GET]

    def asks_lines(self):
        """Whether the wrapper asks the lines of a session for it."""
        return self.removes_tree() or self.updates() or self.lists()

    def looks(self):
        """Whether it changes nothing in the tree."""
        return self.command in LOOKS or self.rehearses()

    def is_quiet(self):
        return "--quiet" in self.rest[3:]

    def leaves_out(self):
        """Whether what is no file, folder or link is left out."""
        return "--leave-out" in self.rest[3:]

    def deletes(self):
        """Whether an update removes what the folder doesn't have."""
        return "--delete" in self.rest[3:] or self.deletes_all()

    def deletes_all(self):
        """Whether it does so also where the folder has nothing at all."""
        return "--delete-all" in self.rest[3:]

    def rehearses(self):
        """Whether an update tells what it would do, and does nothing."""
        return self.updates() and "--dry-run" in self.rest[3:]

    def words(self):
        """The words of the program."""
        if self.keeps_times:
            return [self.blocks, self.state, self.command, forms.TIMES, *self.rest[1:]]
        return [self.blocks, self.state, *(["shell"] if self.asks_lines() else [] if self.mounts() else self.rest)]

    def directory(self):
        """The directory that a copy needs, as a person types it."""
        path = self.rest[2] if self.command in forms.COPIES else self.rest[1].rpartition("/")[0] if self.command == "put" else ""
        if not path:
            return "PATH"
        return shlex.quote(os.fsdecode(readable(os.fsencode(path)))) if self.shows_plain() else path

    def check_folders(self):
        """Refuses folders that would give the record to whoever holds the blocks, and a record that isn't there but for a look."""
        if not self.takes_password():
            return
        folders.check_apart(self.blocks, self.state)
        if self.command == "create":
            self.makes_state = not os.path.lexists(self.state)
        elif self.uses_state():
            folders.check_record(self.blocks, self.state)
            self.was_marked = is_marked(self.state)
        else:
            folders.check_exchanged(self.blocks, self.state)
