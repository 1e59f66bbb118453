"""Kills of `import` and `export`."""
import os
import shutil
import signal

from killing import PATHS, Compared, Lost
from rows import asked, is_part, make_rows, rows_of, told

EMPTYING = [f"{word} {path}" for path in reversed(PATHS) for word in ("rm", "rmdir")] + ["sync"]


def random_rows(chance, block_size):
    """Rows of two levels with the names that the look knows. Some files have more than a piece; in the midst of the largest an import
    syncs, so that a part of it is kept."""
    rows = {}
    for path in [it[1:] for it in PATHS]:
        above = os.path.dirname(path)
        if chance.randrange(4) == 0 or (above and rows.get(above, "") is not None):
            continue
        size = chance.choice([0, 1, block_size, 9 * block_size, 300_000, (1 << 20) + 5, (3 << 20) + 5, (9 << 20) + 5])
        rows[path] = chance.choice([None if not above else b"x", f"to{size}", chance.randbytes(min(size, 2000 * block_size))])
    return rows


class Copies(Compared):
    """A session makes the tree empty, or leaves some of it, and syncs. Then a folder of random rows is imported, by a run that is
    killed at any time within what a whole one takes. An honest session must find the tree after some of the import's commands, from
    the first on; after all of them, where the run ended with 0. So what was synced before is there. Then, over a whole import, an
    export into an empty folder is killed likewise: the tree must be as it was, and the folder a part of it, or all of it where the
    run ended with 0."""

    KILLS_OF_ONE = 20

    def __init__(self, *words):
        super().__init__(*words)
        # The seconds that a whole copy of each kind takes.
        self.usual = {}

    def once(self):
        rows = random_rows(self.chance, self.block_size)
        given, filled = (os.path.join(self.top, name) for name in ("given", "filled"))
        make_rows(given, rows)
        self.import_some(rows, given)
        if rows_of(given) != rows:
            raise Lost("an import changed its folder")
        self.export_some(rows, filled)
        shutil.rmtree(given)
        shutil.rmtree(filled)

    def copy(self, word, host, is_whole=False):
        """A copy that is killed at any time; one that nothing is known of is left alone."""
        usual = self.usual.get(word)
        after = None if is_whole or usual is None else self.chance.uniform(0, 1.1 * usual)
        ended = self.program.run(self.folders, [word, host, "/"], stop_after=after)
        if ended.status == 0:
            self.usual[word] = ended.seconds if usual is None else 0.5 * usual + 0.5 * ended.seconds
        elif ended.status != -signal.SIGKILL:
            raise Lost(f"{word} ended with status {ended.status}: {ended.errors}{ended.output}")
        return ended

    def import_some(self, rows, host):
        """How far an import came that was killed is counted; a whole one follows where it was."""
        self.session(EMPTYING)
        lines, done = asked(rows)
        ended = self.copy("import", host)
        if ended.output not in ("", told("imported", rows)):
            raise Lost(f"an import printed {ended.output!r}")
        kept = self.system.look(lines, [], done[-1:] if ended.status == 0 else done)
        how = "whole" if kept == len(lines) else "in part" if kept else "not at all"
        if ended.status:
            self.count("kills")
            self.count(f"imports kept {how}")
        if kept < len(lines):
            self.session(EMPTYING)
            self.copy("import", host, True)
            self.system.look(lines, [], [len(lines)])

    def export_some(self, rows, host):
        os.mkdir(host)
        ended = self.copy("export", host)
        found = rows_of(host)
        if found != rows if ended.status == 0 or ended.output else not is_part(found, rows):
            raise Lost(f"an export that ended with {ended.status} left {sorted(found)} of {sorted(rows)}")
        self.system.look([], [], [0])
        if ended.status:
            self.count("kills")
            how = "whole" if found == rows else "in part" if found else "empty"
            self.count(f"exports left {how}")
