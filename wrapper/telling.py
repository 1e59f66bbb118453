"""What the wrapper tells a person: why it refuses, what a status means, and its help."""
import os
import re

from names import HOST, plain

HERE = os.path.dirname(os.path.abspath(__file__))
USAGE = 1
# What the wrapper ends with where the program wasn't run; the program's own statuses are 0 to 14.
NOT_RUN = 125
# How a cause begins that is another run.
ANOTHER_RUN = "another run uses "
# What causes say of the record's mark: that it was there before the run, that the run made it, that there is none.
EARLIER_MARK, MADE_MARK, NO_MARK = MARKS = "marked by an earlier run", "and STATE is marked", "isn't marked"
# What causes say of words and folders, which are none where that doesn't hold. The last two leave no other cause.
RETURN, A_FILE, NO_FOLDER = FACTS = "ends in `\\r`", "FOLDER is a file", "FOLDER isn't there"
# What they say of the output: one word of several.
SIGN = re.compile("where the output says ((?:`[a-z-]+`(?: or )?)+)")
# What a new file system's owner has to know first.
STATE_MATTERS = ("Without STATE nothing opens, password or not. Copy it after each run that writes, to another trusted place; "
                 "an older copy doesn't open newer blocks.")
# What is said of what was read without the record.
LOOKED = "looked without STATE: what is shown may be old"


class Refused(Exception):
    """Why the program isn't run."""

    def __init__(self, why, status=NOT_RUN):
        super().__init__(why)
        self.status = status


def write_whole(file, text):
    """Writes all of it: a stop or a signal in the midst of a write ends that behind a part."""
    left = memoryview(text)
    while left:
        left = left[os.write(file, left) :]


def named(path):
    """A path of this machine as lines tell it: it may hold any bytes, and is told so that no two look the same."""
    return plain(os.fsdecode(path).replace("\\", "\\x5c"), HOST)


def say(text):
    """A line to standard error, which may be closed or full."""
    try:
        write_whole(2, os.fsencode(f"cryfs: {plain(str(text), HOST)}\n"))
    except OSError:
        pass


def read_text(name):
    with open(f"{HERE}/{name}", encoding="utf-8") as file:
        return file.read()


def status_rows():
    """The table of statuses: the number, the program's text, the cause, what to do."""
    lines = [line for line in read_text("statuses.txt").splitlines() if line and not line.startswith("#")]
    return [tuple(cell.strip() for cell in line.split("|")) for line in lines]


class Known:
    """What is known behind a run: whether another one uses the folder and what the mark is, or None; causes' words that hold, how the answer
    began that ended it, and the directory that it needs."""

    def __init__(self, is_used, mark, facts, said, directory):
        self.is_used, self.mark, self.facts, self.said, self.directory = is_used, mark, facts, said, directory

    def is_cause(self, cause):
        """Whether a cause may be one. Where it is known whether another run uses the folder, that cause stands alone, or not there."""
        signs = [re.findall("[a-z-]+", it.replace(" or ", " ")) for it in SIGN.findall(cause)]
        return (self.is_used in (None, cause.startswith(ANOTHER_RUN)) and (self.mark is None or fits(cause, self.mark)) and
                all(it in self.facts for it in FACTS if it in cause) and (self.said is None or all(any(it in self.said for it in words) for words in signs)))


def meanings(status, text, command, known):
    """What the table says of a status, negative for a signal, and the text that the program printed, in a line for each cause."""
    rows = [row for row in status_rows() if row[0] == str(status if status >= 0 else 128 - status) and row[1] in ("", text)]
    rows = [row for row in rows if command in (commands_of(row[2]) or [command]) and known.is_cause(row[2])]
    # (of a look no other cause tells what the record has to do with it)
    rows = [row for row in rows if commands_of(row[2]) == ["look"]] or rows
    for it in (A_FILE, NO_FOLDER):
        rows = [row for row in rows if it in row[2]] or rows
    if status < 0:
        # (what stopped it is told of a command by itself)
        rows = [row for row in rows if commands_of(row[2])] or rows
    makes = f"`mkdir` {known.directory}"
    return [f"{'or ' if number else ''}{cause}: {remedy.replace('`mkdir` PATH', makes)}" for number, (_, _, cause, remedy) in enumerate(rows)]


def fits(cause, mark):
    """Whether a cause says that of the mark, or nothing of it; an earlier run's mark is a cause by itself."""
    said = [it for it in MARKS if it in cause]
    return mark in said if said else mark != EARLIER_MARK


def mark_met(before, after):
    """What is known of the mark by the record before the run and behind it."""
    if before:
        return EARLIER_MARK
    return None if before is None else {True: MADE_MARK, False: NO_MARK}.get(after)


def commands_of(cause):
    """The commands that a cause begins with: `one`, `two` or `three`."""
    return re.findall("`([a-z]+)`", re.match("(?:`[a-z]+`(?:, | or )?)*", cause)[0])


def status_help():
    """The table as help prints it: each status, then its causes."""
    import textwrap
    lines, last = ["Statuses, their likely causes, and what to do:"], None
    for number, text, cause, remedy in status_rows():
        if (number, text) != last and text:
            lines.append(f"    {number:<6}{text}")
        start = " " * 12 if text else f"    {number:<6}"
        lines += textwrap.wrap(f"{cause}: {remedy}", 116, initial_indent=start, subsequent_indent=" " * 16)
        last = number, text
    return "\n".join(lines) + "\n"


def line_forms():
    """The words of each line by its first one, which is the command."""
    rows = [row.strip() for row in read_text("lines.txt").splitlines() if row.startswith("    ")]
    return {form.split()[0]: form for row in rows for form in re.split(" {2,}", row)}


def page():
    """Where the page for users is, in a checkout or below an installation."""
    top = os.path.dirname(HERE)
    return next((it for it in (f"{top}/docs/USING.md", os.path.normpath(f"{top}/../../share/doc/sergunad/USING.md")) if os.path.exists(it)), "USING.md")


def help_text():
    return f"{read_text('help.txt')}Lines:\n{read_text('lines.txt')}\n{status_help()}\nMore: {page()}\n"
