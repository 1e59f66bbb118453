"""Brings a directory to what a folder of this machine has, by the lines of one session: what is new or changed is written, and
at last what the folder doesn't have is removed, where that is asked.

A file counts as unchanged where its length and its time of modification are those of the file here. Where the time alone
differs its bytes are compared. A new or changed file is written in a directory of the update's own, gets its time, and is
then moved to its place. So a stop leaves the old file or the new one, and in a large directory no entry but its own moves.

The folder may change meanwhile. What has gone, or was exchanged for something else, is passed over and named."""
import os
import stat

import host_folder
from asking import OK, joined
from host_folder import Exchanged, kind_of, place_of
from names import escaped, written
from removing import KINDS, Removal
from telling import USAGE, named, say

# The bytes that a line carries, as hexadecimal digits: a line has 1,048,576 bytes at most.
PIECE = 500000
# The directory, below the one that is updated, in which a file is written before it takes its place, and what it has: the file
# or link, and what it takes the place of, where that is of another kind.
BESIDE, DRAFT, ASIDE = b".sergunad-update", b"new", b"old"
# The modes that a new file and a new directory have.
MODES = {b"f": b"644", b"d": b"755"}
# How a rehearsal tells what would be made.
MAKES = {b"d": b"mkdir ", b"f": b"write ", b"l": b"symlink "}
GOES_ON = "--leave-out goes on without it"
HOST_FAULT = ("host folder fault", 12)
NANO = 10**9


def moment(nanos):
    """A time as a word of a line; before 1970 there is none but the first."""
    return b"%d.%09d" % divmod(max(nanos, 0), NANO)


def mode(numbers):
    """A mode as a word of a line."""
    return b"%o" % stat.S_IMODE(numbers.st_mode)


class Update(Removal):
    """A session that writes what differs, and counts what it made and the bytes of files that it wrote."""

    refused, stopped = ("copy refused", 13), ("copy stopped", 14)

    def __init__(self, program, call, first):
        self.made, self.bytes, self.gone = dict.fromkeys(KINDS, 0), 0, []
        self.beside, self.has_beside = None, False
        # (where one isn't there the program says so)
        self.barred = {place_of(os.stat(it)) for it in (call.blocks, call.state) if os.path.exists(it)}
        super().__init__(program, call, first)

    def host_fails(self, path, why):
        """Ends it with a fault of the folder here."""
        self.hide()
        say(f"{named(path)}: {why}")
        self.fault = HOST_FAULT
        self.stop()

    def pass_over(self, path, why):
        """Names what isn't copied in this run."""
        self.hide()
        say(f"{named(path)} {why}: passed over")

    def leave_out(self, path, why):
        """Names what can't be copied where that is to be left out; else it ends with it."""
        self.hide()
        say(f"{named(path)} {why}: {'left out' if self.call.leaves_out() else GOES_ON}")
        if not self.call.leaves_out():
            self.fault = HOST_FAULT
            self.stop()

    def entries(self, folder):
        """What is in a folder here by names as they are printed, each with its name and its numbers; none of what has gone since."""
        found = {}
        for name, numbers in folder.rows():
            if numbers is None:
                self.pass_over(folder.path_of(name), "has gone meanwhile")
                # (so that nothing is removed for it)
                found[escaped(name)] = name, None
            elif self.is_taken(folder.path_of(name), name, numbers):
                found[escaped(name)] = name, numbers
        return found

    def is_taken(self, path, name, numbers):
        """Whether a row can be copied."""
        if place_of(numbers) in self.barred:
            self.host_fails(path, "BLOCKS or STATE, which isn't copied")
        why = "is no file, folder or link" if not kind_of(numbers) else "has a name that is no text" if not is_text(name) else None
        if why:
            self.leave_out(path, why)
        return not why

    def rows_at(self, path):
        """The kinds of the rows of a directory by their names."""
        return dict(reversed(it) for it in self.rows_in(path))

    def update_directory(self, folder, path, rows, found):
        """Brings one directory, which has these rows, to what was found in the folder, and gives those below it: each its name here, its numbers,
        its path, and whether it is new. What the folder doesn't have is left for the end."""
        if self.call.deletes():
            self.gone += [(rows[it], joined(path, it)) for it in sorted(rows, reverse=True) if it not in found]
        below = []
        for printed in sorted(it for it in found if found[it][1]):
            (name, numbers), at, there = found[printed], joined(path, printed), rows.get(printed)
            kind = kind_of(numbers)
            if there not in (None, kind) and not self.call.deletes():
                self.fail(b"error exists", at)
            if kind == b"d":
                self.update_folder(at, there)
                below.append((name, numbers, at, there != b"d"))
            else:
                update = self.update_file if kind == b"f" else self.update_link
                self.read_here(folder.path_of(name), lambda: update(folder, (name, numbers), at, there))
        return below

    def read_here(self, path, work):
        """What the work gives, which reads what is at this path here. Nothing where that was exchanged or is left out; it stops where the system
        refuses."""
        try:
            return work()
        except Exchanged as why:
            self.pass_over(path, why)
        except PermissionError as why:
            self.leave_out(path, f"can't be read ({why.strerror})")
        except OSError as why:
            self.host_fails(path, why.strerror)
        return None

    def remove_one(self, kind, path):
        """Removes a row, a directory with all below it."""
        if kind == b"d":
            self.remove_tree(path, self.rows_in(path))
        else:
            self.remove_row(kind, path)

    def update_folder(self, path, there):
        if there != b"d":
            self.take_place(b"mkdir " + path, b"d", there, path)

    def count(self, kind):
        self.made[kind] += 1
        self.tell(f"{self.made[b'f']} files, {self.bytes >> 20} MiB written")

    def make_beside(self, path):
        if not self.has_beside:
            self.have(b"mkdir " + self.beside, path)
            self.has_beside = True

    def begin_draft(self, line, path):
        """Makes what is to take its place at the path, by this line."""
        self.make_beside(path)
        self.have(line + self.draft, path)

    def end_draft(self, kind, there, path):
        """Has it take its place."""
        self.take_place(b"mv " + self.draft + b" " + path, kind, there, path)

    def take_place(self, line, kind, there, path):
        """Asks the line by which the path gets its new row. A row of another kind goes, a directory once it is empty: then each path can be named
        where it is moved."""
        self.note(MAKES[kind], path)
        if there in (None, kind):
            self.have(line, path)
        else:
            self.note(b"remove ", path)
            for below, name in reversed(self.rows_in(path) if there == b"d" else []):
                self.remove_one(below, joined(path, name))
            self.exchange(line, path)
            self.remove_row(there, joined(self.beside, ASIDE))
        self.count(kind)

    def exchange(self, line, path):
        """Moves what is at the path aside, and asks the line that puts another row there. No first signal stops it between the two; where the second
        one is refused, the first is undone."""
        self.make_beside(path)
        aside = joined(self.beside, ASIDE)
        self.is_held = True
        self.have(b"mv " + path + b" " + aside, path)
        answer = self.change(line)
        if answer != OK:
            self.change(b"mv " + aside + b" " + path)
            self.fail(answer[0], path)
        self.is_held = False

    def note(self, word, path):
        """Takes note of what is done, where that is told."""

    def update_link(self, folder, row, path, there):
        name, target = row[0], folder.target(row[0])
        if not is_text(target):
            self.leave_out(folder.path_of(name), "has a target that is no text")
        elif there != b"l" or self.link_at(path) != escaped(target):
            self.begin_draft(b"symlink " + escaped(target) + b" ", path)
            self.end_draft(b"l", there, path)

    def link_at(self, path):
        """The target of the link there, as it is printed."""
        answer = self.ask(b"readlink " + path)[0]
        if not answer.startswith(b"link "):
            self.fail(answer, path)
        return answer[5:]

    def update_file(self, folder, row, path, there):
        with folder.open_file(*row) as file:
            numbers = os.fstat(file.fileno())
            if there == b"f" and self.is_unchanged(file, numbers, path):
                return
            file.seek(0)
            self.begin_draft(b"mkfile ", path)
            size = self.write_file(file, path)
        self.set_mode(self.draft, path, MODES[b"f"], numbers)
        self.set_time(self.draft, path, numbers)
        self.bytes += size
        self.end_draft(b"f", there, path)

    def write_file(self, file, path):
        """Writes the bytes of the file here, and gives how many they were."""
        place = 0
        while piece := file.read(PIECE):
            self.have(b"write %s %d %s" % (self.draft, place, piece.hex().encode()), path)
            place += len(piece)
            self.tell(f"{self.made[b'f']} files, {self.bytes + place >> 20} MiB written")
        return place

    def set_time(self, at, path, numbers):
        self.have(b"utime %s %s %s" % (at, moment(numbers.st_atime_ns), moment(numbers.st_mtime_ns)), path)

    def set_mode(self, at, path, there, numbers):
        """Gives a row that has this mode the mode of the row here."""
        if there != mode(numbers):
            self.have(b"chmod %s %s" % (at, mode(numbers)), path)

    def is_unchanged(self, file, numbers, path):
        """Whether the file there has the length, and the time or the bytes, of the file here. Where it has the bytes it gets the time, and in any case
        the mode."""
        answer = self.ask(b"stat " + path)[0]
        words = answer.split(b" ")
        if words[:2] != [b"stat", b"f"]:
            self.fail(answer, path)
        if int(words[5]) != numbers.st_size:
            return False
        if words[7] != moment(numbers.st_mtime_ns):
            if not self.has_bytes(file, path):
                return False
            self.set_time(path, path, numbers)
        self.set_mode(path, path, words[2], numbers)
        return True

    def has_bytes(self, file, path):
        """Whether the file there has the bytes of the file here, of whose length it is."""
        place = 0
        while True:
            piece = file.read(PIECE)
            answer = self.ask(b"read %s %d %d" % (path, place, PIECE))[0]
            if not answer.startswith(b"data "):
                self.fail(answer, path)
            if answer != b"data " + (piece.hex().encode() or b"-"):
                return False
            place += len(piece)
            if len(piece) < PIECE:
                return True

    def update(self, folder, path):
        """Brings the directory at the path to what the folder has."""
        self.beside = joined(path, BESIDE)
        self.draft = joined(self.beside, DRAFT)
        rows, found = self.rows_at(path), self.read_here(folder.path, lambda: self.entries(folder))
        if found is None:
            self.host_fails(folder.path, "can't be read")
        if BESIDE in found:
            self.host_fails(folder.path_of(BESIDE), "an update needs this name itself")
        left = rows.pop(BESIDE, None)
        if left and not self.is_own(left):
            self.fail(b"error exists", self.beside)
        if rows and not found and self.call.deletes() and not self.call.deletes_all():
            self.refuse(f"FOLDER has nothing to copy, and all {len(rows)} rows of PATH would go: is its disk there? Else give --delete-all. Nothing was done")
        if left:
            # (an update that was stopped left it)
            self.remove_one(left, self.beside)
            self.removed = dict.fromkeys(KINDS, 0)
        self.update_below(folder, path, rows, found)
        for kind, gone in self.gone:
            self.note(b"remove ", gone)
            self.remove_one(kind, gone)
        if self.has_beside:
            self.have(b"rmdir " + self.beside, path)

    def is_own(self, kind):
        """Whether the row that has the update's name is what an update leaves: a directory with nothing but its draft and what was moved aside, which
        has no rows."""
        if kind != b"d":
            return False
        rows = self.rows_at(self.beside)
        if any(it not in (DRAFT, ASIDE) for it in rows) or rows.get(DRAFT) == b"d":
            return False
        return rows.get(ASIDE) != b"d" or not self.rows_in(joined(self.beside, ASIDE))

    def refuse(self, why):
        """Ends it as words that aren't taken."""
        self.fault = why, USAGE
        self.stop()

    def update_below(self, folder, path, rows, found):
        """Brings a directory and all below it to what the folder has. The folders from this one down to the one at work are open."""
        open_ones = [(folder, iter(self.update_directory(folder, path, rows, found)), None)]
        while open_ones:
            above, left, made = open_ones[-1]
            name, numbers, at, is_new = next(left, (None, None, None, None))
            if name is None:
                if made:
                    self.dress(*made)
                open_ones.pop()[0].close()
                continue
            here = self.read_here(above.path_of(name), lambda: above.folder(name, numbers))
            if here and here.is_one_of(self.barred):
                self.host_fails(here.path, "BLOCKS or STATE, which isn't copied")
            found = here and self.read_here(here.path, lambda: self.entries(here))
            if found is not None:
                rows = {} if is_new else self.rows_at(at)
                open_ones.append((here, iter(self.update_directory(here, at, rows, found)), (at, numbers) if is_new else None))

    def dress(self, path, numbers):
        """Gives a directory that was made the mode and the time of the folder here, once all below it is there."""
        self.set_mode(path, path, MODES[b"d"], numbers)
        self.set_time(path, path, numbers)

    def updated_lines(self):
        """What it made, and below it what it removed, where that was asked."""
        line = b"updated %d %d %d %d" % (*(self.made[it] for it in KINDS), self.bytes)
        return line + b"\n" + self.removed_line() if self.call.deletes() else line


class Rehearsal(Update):
    """An update that asks nothing that changes, and tells what it would do."""

    def __init__(self, program, call, first):
        self.notes = []
        super().__init__(program, call, first)

    def change(self, line):
        return OK

    def note(self, word, path):
        self.notes.append(word + path)

    def write_file(self, file, path):
        return os.fstat(file.fileno()).st_size

    def updated_lines(self):
        would = (b"would update " + super().updated_lines()[8:]).replace(b"\nremoved ", b"\nwould remove ")
        return b"\n".join([*self.notes, would])


def is_text(name):
    """Whether these bytes are text, as names and targets of copies are."""
    try:
        name.decode("utf-8")
    except UnicodeDecodeError:
        return False
    return True


def run(program, call, first):
    """Brings the directory that the call names to what its folder has."""
    update = (Rehearsal if call.rehearses() else Update)(program, call, first)
    host_folder.let_open_many()
    path = os.fsencode(call.rest[1])

    def work():
        try:
            folder = host_folder.open_folder(path)
            is_barred = folder.lies_in(update.barred)
        except OSError as why:
            update.host_fails(path, why.strerror)
        if is_barred:
            update.host_fails(path, "it is in BLOCKS or STATE")
        update.update(folder, written(call.rest[2]))
        return (update.updated_lines(),)

    update.finish(work)
