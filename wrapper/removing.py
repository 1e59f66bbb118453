"""Removes a tree by the lines of one session: `ls`, `rm` and `rmdir`, what is below a directory before it."""
from asking import NO_DIRECTORY, Asker, joined
from names import written

KINDS = (b"d", b"f", b"l")


class Removal(Asker):
    """A session that removes trees, and counts what went by kinds."""

    refused, stopped = ("removal refused", 13), ("removal stopped", 14)

    def __init__(self, program, call, first):
        self.removed = dict.fromkeys(KINDS, 0)
        super().__init__(program, call, first)

    def remove_row(self, kind, path):
        """Removes one row, a directory once it is empty."""
        self.have((b"rmdir " if kind == b"d" else b"rm ") + path, path)
        self.removed[kind] += 1
        self.tell(f"{sum(self.removed.values())} removed")

    def remove_tree(self, path, rows):
        """Removes a directory, which has these rows, and all below it."""
        # The directories that are being emptied, each with the rows that are left in it: the last one first, since removing
        # that one moves no other.
        open_ones = [(path, reversed(rows))]
        while open_ones:
            above, left = open_ones[-1]
            kind, name = next(left, (None, None))
            if kind is None:
                self.remove_row(b"d", above)
                open_ones.pop()
            elif kind == b"d":
                below = joined(above, name)
                open_ones.append((below, reversed(self.rows_in(below))))
            else:
                self.remove_row(kind, joined(above, name))

    def remove(self, path):
        """Removes what is at the path, and all below it."""
        rows = self.rows(path)
        if rows == NO_DIRECTORY:
            # (a file or a link, or a name below one)
            self.remove_row(self.stat(path)[5:6], path)
        elif isinstance(rows, bytes):
            self.fail(rows, path)
        else:
            self.remove_tree(path, rows)

    def removed_line(self):
        return b"removed %d %d %d" % tuple(self.removed[it] for it in KINDS)


def run(program, call, first):
    """Removes what the call names."""
    removal = Removal(program, call, first)

    def work():
        removal.remove(written(call.rest[2]))
        return (removal.removed_line(),)

    removal.finish(work)
