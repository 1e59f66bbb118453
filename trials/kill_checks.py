"""Kills of `check` and `check --all`."""
import glob
import os
import shutil
import signal

from killing import Compared, Lost, kept_points, some_lines

# A file whose blocks take a check some time.
FILLING = ["mkfile /large", "truncate /large 8000000"]
RECORD, MARK_AT = "cryfs.localstate", 19


def files_of(folder):
    """The bytes of each file below it."""
    found = {}
    for path in glob.glob(f"{folder}/**", recursive=True):
        if os.path.isfile(path):
            with open(path, "rb") as file:
                found[os.path.relpath(path, folder)] = file.read()
    return found


def kept_in(folder):
    """The same without what a killed save left beside the record."""
    return {name: held for name, held in files_of(folder).items() if not name.endswith(".new")}


def marked(files):
    record = files[RECORD]
    return {**files, RECORD: record[:MARK_AT] + b"\1" + record[MARK_AT + 1 :]}


class Checks(Compared):
    """On a file system that has a file of some hundred blocks, each time by one of the two words:

    over what waits   a session of random lines is killed, so that its changes may wait in the record, and then a check. An honest
                      session must find the tree of a kept point
    over honest files a check is killed. No file of either folder may have changed, come or gone, and what was printed is a front
                      part of what a whole check prints
    over damage       a block's file is changed, cut, removed or put in another's place, and a check is killed. No file may have
                      changed, but that the record may be marked by `check`; one that wasn't killed ends with 5. With the files of
                      before the tree is there
    """

    KILLS_OF_ONE = 30

    def __init__(self, *words):
        super().__init__(*words)
        # The seconds that a whole check of each kind takes.
        self.usual = {}
        self.session(FILLING)

    def once(self):
        words = self.chance.choice([["check"], ["check", "--all"]])
        self.over_what_waits(words)
        self.over_honest_files(words)
        self.over_damage(words)

    def note(self, ended, words, where):
        if ended.status == -signal.SIGKILL:
            self.count("kills")
            self.count(f"of {' '.join(words)} over {where}")
            self.count("with something printed", ended.output != "")

    def check(self, words, statuses, is_whole=False):
        """A check that is killed at any time, in one of two cases near its end, where it prints; one that nothing is known of is left
        alone."""
        kind = " ".join(words), statuses
        usual = self.usual.get(kind)
        after = None if is_whole or usual is None else self.chance.uniform(self.chance.choice([0, 0.9 * usual]), 1.05 * usual)
        ended = self.program.run(self.folders, words, stop_after=after)
        if ended.status in statuses:
            self.usual[kind] = ended.seconds if usual is None else 0.5 * usual + 0.5 * ended.seconds
        elif ended.status != -signal.SIGKILL:
            raise Lost(f"{kind[0]} ended with status {ended.status}: {ended.errors}{ended.output[-300:]}")
        return ended

    def over_what_waits(self, words):
        lines = some_lines(self.chance, self.block_size)
        stopped = self.system.stop_in(lines, self.chance)
        ended = self.check(words, (0,))
        self.note(ended, words, "what waits")
        self.system.look(lines, stopped.answers, kept_points(lines, stopped))

    def over_honest_files(self, words):
        whole = self.check(words, (0,), True)
        before = [files_of(it) for it in (self.folders.blocks, self.folders.state)]
        ended = self.check(words, (0,))
        self.note(ended, words, "honest files")
        if [files_of(it) for it in (self.folders.blocks, self.folders.state)] != before:
            raise Lost(f"{words} changed a file")
        if not whole.output.startswith(ended.output) or (ended.status == 0 and ended.output != whole.output):
            raise Lost(f"{words} printed something else: {ended.output[-300:]!r}")

    def damage(self):
        """Changes a block's file in one of four ways."""
        path, other = self.chance.sample(sorted(glob.glob(f"{self.folders.blocks}/*/*")), 2)
        with open(path, "rb") as file:
            held = bytearray(file.read())
        how = self.chance.choice(["changed", "cut", "removed", "put in another's place"])
        if how == "removed":
            os.remove(path)
        elif how == "put in another's place":
            shutil.copyfile(path, other)
        else:
            at = self.chance.randrange(len(held))
            held[at] ^= 1 << self.chance.randrange(8)
            with open(path, "wb") as file:
                file.write(held if how == "changed" else held[:at])

    def over_damage(self, words):
        honest = [shutil.copytree(it, f"{it}.honest") for it in (self.folders.blocks, self.folders.state)]
        self.damage()
        blocks, state = files_of(self.folders.blocks), kept_in(self.folders.state)
        ended = self.check(words, (5,))
        self.note(ended, words, "damage")
        found = kept_in(self.folders.state)
        is_marked = found == marked(state)
        if files_of(self.folders.blocks) != blocks or (found != state and (not is_marked or "--all" in words)):
            raise Lost(f"{words} over damage changed more than the mark: {sorted(found)}")
        if ended.status == 5 and is_marked == ("--all" in words):
            raise Lost(f"{words} over damage left the mark at {is_marked}")
        self.count("left a mark", is_marked)
        for copy in honest:
            shutil.rmtree(copy.removesuffix(".honest"))
            os.rename(copy, copy.removesuffix(".honest"))
        self.system.look([], [], [0])
