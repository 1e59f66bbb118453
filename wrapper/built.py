"""The programs that were built: where they are, which one is run, and whether they are built of the sources as they are."""
import os
import re
import sys

import processor
from telling import Refused, say

TOP = os.path.dirname(os.path.dirname(os.path.abspath(__file__)))
NOT_CURRENT = "the sources have changed since the program was built, and what was built is run: ./build proves and builds it anew"
UNKNOWN = "it isn't known of which sources the program was built, and it is run: ./build proves and builds it anew"
# The programs by their crates. A checkout makes those of them that its crates.txt names.
PROGRAMS = ("cryfs", "cryfs_mount")


def is_program(path):
    return os.access(path, os.X_OK) and os.path.getsize(path) > 0


def wide_of(program):
    """Where the same program for processors with AVX2 is, if it could be built."""
    return f"{program}.v3"


def sum_of(program):
    """The file that tells the sum of the sources that a program was built of."""
    return f"{program}.sources"


def built_of(program):
    """The sum of the sources that a program was built of, or nothing."""
    try:
        with open(sum_of(program), encoding="ascii") as file:
            return file.read().strip()
    except OSError:
        return ""


class Built:
    """The programs below a folder: of a checkout, which has its sources, or of an installation, which has none."""

    def __init__(self, top=TOP):
        self.top = top
        self.is_installed = not os.path.exists(f"{top}/crates.txt")
        self.program = self.path(PROGRAMS[0])
        self.out = os.path.dirname(self.program)
        # The sum of the sources that all were built of; its time is that of the last look which found them so. The other
        # file's time is that of the last look which found them different.
        self.sum, self.differs = sum_of(self.program), f"{self.program}.differs"

    def path(self, name):
        """Where a program is, as all processors run it."""
        return f"{self.top}/{installed_name(name)}" if self.is_installed else f"{self.top}/crates/{name}/out/{name}"

    def names(self):
        """The programs that are made of the sources."""
        with open(f"{self.top}/crates.txt", encoding="utf-8") as file:
            listed = set(re.findall(r"^(\w+).*:", file.read(), re.MULTILINE))
        return [it for it in PROGRAMS if it in listed]

    def are_there(self):
        return all(is_program(self.path(it)) for it in self.names())

    def files(self):
        """All programs that were built of the same sources as the first one, by their names in an installation."""
        found = {}
        for name in self.names():
            plain, installed = self.path(name), installed_name(name)
            found.update({installed: plain, wide_of(installed): wide_of(plain)})
        return {name: it for name, it in found.items() if is_program(it) and built_of(it) == built_of(self.program)}

    def sum_sources(self):
        """One sum of all that the proof and the build would read."""
        sys.path.append(f"{self.top}/tools")
        import prove
        return prove.sum_up(prove.whole(self.names())[0])

    def is_current(self):
        """Whether the programs were built of the sources as they are. They are summed only where something may be newer than
        the last look; a copy may keep an old time, so what counts is also when it came there."""
        wanted = built_of(self.program)
        if not wanted or not self.are_there() or any(built_of(self.path(it)) != wanted for it in self.names()):
            return False
        changed = self.last_change()
        if changed < time_of(self.sum):
            return True
        if changed < time_of(self.differs):
            return False
        looked = self.look()
        same = self.sum_sources() == wanted
        keep_time(self.sum if same else self.differs, looked)
        return same

    def last_change(self):
        """When a source, or a folder of sources, last changed."""
        last = max(change_of(os.stat(f"{self.top}/{it}")) for it in ("crates.txt", "HANDLES", "tools/prove.py"))
        left = [f"{self.top}/crates"]
        while left:
            folder = left.pop()
            last = max(last, change_of(os.stat(folder)))
            with os.scandir(folder) as entries:
                for it in entries:
                    if it.is_dir(follow_symlinks=False):
                        if it.name != "out":
                            left.append(it.path)
                    else:
                        last = max(last, change_of(it.stat(follow_symlinks=False)))
        return last

    def look(self):
        """The time of now as the file system there tells it, or none."""
        name = f"{self.program}.looked.{os.getpid()}"
        try:
            with open(name, "w", encoding="ascii"):
                looked = time_of(name)
            os.remove(name)
            return looked
        except OSError:
            return None

    def to_run(self, name=PROGRAMS[0]):
        """A program as this processor runs it, where it is built; a line of standard error says where the sources are others now."""
        program = self.path(name)
        if not is_program(program) and self.is_installed:
            raise Refused(f"{program} isn't there: install it anew")
        if not is_program(program):
            raise Refused(f"the program isn't built yet: run {self.top}/build, which takes 30 minutes or more the first time")
        try:
            if not self.is_installed and not self.is_current():
                say(NOT_CURRENT if built_of(self.program) else UNKNOWN)
        except OSError as why:
            say(f"the sources can't be looked at ({why}); what was built is run")
        return fitting(program)

    def version(self):
        """What the program was built of, in a line."""
        if self.is_installed:
            return f"cryfs (Sergunad), built of the sources {built_of(self.program)[:16]}"
        built = "is" if self.is_current() else "isn't"
        return f"cryfs (Sergunad), sources {self.sum_sources()[:16]}; the program {built} built of them"


def installed_name(name):
    """What a program is called in an installation, beside the wrapper `cryfs`: `program`, `program_mount`."""
    return "program" + name.removeprefix(PROGRAMS[0])


def fitting(program):
    """The program, or the one of the same sources for processors with AVX2 where this is one."""
    wide, asked = wide_of(program), processor.asked()
    is_wide_there = is_program(wide) and built_of(wide) == built_of(program) != ""
    if asked == processor.WIDE and not is_wide_there:
        raise Refused(f"{processor.ASKED} asks for a program for {asked}, and there is none of these sources")
    takes_wide = is_wide_there and asked != processor.PLAIN and (asked or processor.is_wide())
    return wide if takes_wide else program


def change_of(seen):
    return max(seen.st_mtime_ns, seen.st_ctime_ns)


def time_of(path):
    try:
        return os.stat(path).st_mtime_ns
    except OSError:
        return 0


def keep_time(path, looked):
    """Has the file tell when the look was, where it can be written."""
    if looked is None:
        return
    try:
        os.close(os.open(path, os.O_WRONLY | os.O_CREAT, 0o644))
        os.utime(path, ns=(looked, looked))
    except OSError:
        pass
