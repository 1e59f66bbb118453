"""Lists trees by the lines of one session: `ls -l`, `ls -R`, `tree`, `du`.

It asks `ls` of each directory, and `stat` of the rows whose numbers it tells, of links `readlink`. Those of one directory are
given ahead of their answers. What it has is printed directory by directory."""
import stat
from itertools import chain

from asking import NO_DIRECTORY, Asker, joined
from counts import kinds, moment, size
from names import readable, written
from showing import OUTPUT_FAULT
from telling import write_whole

BITS = {b"d": stat.S_IFDIR, b"f": stat.S_IFREG, b"l": stat.S_IFLNK}
KINDS = tuple(BITS)
# What leads to a row of a tree and past it, to the last one and past that; in letters that any terminal has, and in better ones.
BRANCHES = {False: ("|-- ", "|   ", "`-- ", "    "), True: ("├── ", "│   ", "└── ", "    ")}


class Listing(Asker):
    """A session that lists what is below a path."""

    refused, stopped = ("listing refused", 13), ("listing stopped", 14)

    def __init__(self, program, call, first):
        self.options, self.found = "".join(it[1:] for it in call.rest[1:-1]), dict.fromkeys(KINDS, 0)
        super().__init__(program, call, first)

    def tell_lines(self, *lines):
        """Prints these lines."""
        self.hide()
        try:
            write_whole(self.output, b"".join(it + b"\n" for it in lines))
        except OSError:
            self.fault = "output fault", OUTPUT_FAULT
            self.stop()

    def name(self, word):
        """A name or path as it is told."""
        return readable(word) if self.showing.is_plain else word

    def list_path(self, path):
        """Lists what is at the path."""
        rows = self.rows(path)
        if rows == NO_DIRECTORY:
            return self.list_one(self.stat(path), path)
        if isinstance(rows, bytes):
            self.fail(rows, path)
        work = {"ls": self.list_rows, "tree": self.draw, "du": self.sum_up}[self.call.command]
        return work(path, rows)

    def list_one(self, answer, path):
        """Lists what is no directory."""
        kind = answer[5:6]
        if self.call.command == "du":
            self.tell_lines(self.sum_line(int(answer.split(b" ")[5]) if kind == b"f" else 0, path))
        elif "l" in self.options:
            self.tell_lines(*self.lines_of([(kind, path, path)]))
        else:
            self.tell_lines((b"" if self.call.command == "tree" else kind + b" ") + self.name(path))

    def list_rows(self, path, rows):
        """Prints the rows of a directory, and of those below it where that is asked, each directory before those in it."""
        left, is_first = [(path, rows)], True
        while left:
            at, rows = left.pop()
            rows = self.rows_in(at) if rows is None else rows
            named = [(kind, name, joined(at, name)) for kind, name in rows]
            lines = self.lines_of(named) if "l" in self.options else [kind + b" " + self.name(name) for kind, name in rows]
            head = [self.name(at) + b":"] if "R" in self.options else []
            self.tell_lines(*([] if is_first else [b""]), *head, *lines)
            is_first = False
            if "R" in self.options:
                left += [(it, None) for kind, _, it in reversed(named) if kind == b"d"]

    def numbers_of(self, rows):
        """What `stat` answers of each of these rows, and the target of each that is a link."""
        answers = self.ask_ahead(chain.from_iterable([b"stat " + at] + [b"readlink " + at] * (kind == b"l") for kind, _, at in rows))
        whole = f"{len(rows):,} rows of {self.name(rows[0][2].rpartition(b'/')[0] or b'/').decode(errors='replace')}" if rows else ""
        for number, (kind, _, at) in enumerate(rows):
            self.tell(f"{number:,} of {whole}")
            numbers = next(answers)
            target = next(answers) if kind == b"l" else b"link "
            for answer, start in ((numbers, b"stat "), (target, b"link ")):
                if not answer.startswith(start):
                    self.fail(answer, at)
            yield numbers.split(b" "), target[5:]

    def lines_of(self, rows):
        """A line of each row: kind and mode, bytes, time of modification, and name, of a link also its target."""
        told = [(stat.filemode(BITS[kind] | int(words[2], 8)), b"-" if kind == b"d" else words[5], moment(int(words[7].split(b".")[0])),
                 self.name(name) + (b" -> " + self.name(target) if kind == b"l" else b""))
                for (kind, name, _), (words, target) in zip(rows, self.numbers_of(rows))]
        width = max((len(it[1]) for it in told), default=0)
        return [f"{mode} {length.decode():>{width}} {when} ".encode() + name for mode, length, when, name in told]

    def draw(self, path, rows):
        """Draws the tree below a directory, and tells what there is."""
        self.tell_lines(self.name(path))
        open_ones = [(path, iter(rows), len(rows), "")]
        past, further, last, behind = BRANCHES[self.showing.is_plain]
        while open_ones:
            at, left, count, start = open_ones.pop()
            for kind, name in left:
                count -= 1
                self.found[kind] += 1
                self.tell_lines((start + (past if count else last)).encode() + self.name(name))
                if kind == b"d":
                    open_ones.append((at, left, count, start))
                    below = joined(at, name)
                    rows = self.rows_in(below)
                    open_ones.append((below, iter(rows), len(rows), start + (further if count else behind)))
                    break
        self.tell_lines(b"", kinds(self.found.values()).encode())

    def sum_up(self, path, rows):
        """Tells how many bytes the files below each directory have, those of one behind those in it."""
        open_ones = [(path, *self.summed(path, rows))]
        while open_ones:
            at, left, total = open_ones.pop()
            name = next(left, None)
            if name is not None:
                below = joined(at, name)
                open_ones += [(at, left, total), (below, *self.summed(below, self.rows_in(below)))]
                continue
            if not open_ones or "s" not in self.options:
                self.tell_lines(self.sum_line(total, at))
            if open_ones:
                above, others, sum_above = open_ones.pop()
                open_ones.append((above, others, sum_above + total))

    def summed(self, path, rows):
        """The names of the directories in one, and how many bytes its files have."""
        files = [(kind, name, joined(path, name)) for kind, name in rows if kind == b"f"]
        return iter([name for kind, name in rows if kind == b"d"]), sum(int(words[5]) for words, _ in self.numbers_of(files))

    def sum_line(self, count, path):
        return (f"{size(count):>9}  " if self.showing.is_seen else f"{count} ").encode() + self.name(path)


def run(program, call, first):
    """Lists what the call names."""
    listing = Listing(program, call, first)

    def work():
        listing.list_path(written(call.rest[-1]))
        return (b"",)

    listing.finish(work)
