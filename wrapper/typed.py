"""Lines as a person types them at the prompt: paths in quotes, and paths that the Tab key completes."""
import os

import names
from forms import LINES

QUOTES = b"'\""
VIOLATION = b"violation "


def taken_word(line, is_path):
    """The next word of a line, and what follows it: up to the next space, or of a path in quotes up to the quote that ends it. None where none does."""
    if not (is_path and line[:1] and line[:1] in QUOTES):
        word, _, rest = line.partition(b" ")
        return word, rest
    inside, mark, rest = line[1:].partition(line[:1])
    if not mark or rest[:1] not in (b"", b" "):
        return None
    return os.fsencode(names.word_of(os.fsdecode(inside))), rest[1:]


def exact_line(line):
    """A line whose paths may stand in quotes as lines have it. Without quotes no path begins with one, so that other lines mean what they did."""
    command, _, rest = line.partition(b" ")
    found, kinds = [command], LINES.get(os.fsdecode(command), "").split()[1:]
    for kind in kinds:
        taken = taken_word(rest, kind == "PATH")
        if not taken or not taken[0]:
            return line
        found.append(taken[0])
        rest = taken[1]
    return line if rest else b" ".join(found)


class Completion:
    """Completes the command or the path at the end of what was typed, paths by the rows of their directory."""

    def __init__(self, session):
        self.session, self.found = session, []

    def __call__(self, _, number):
        """The next way to go on with the word, as readline asks for them one by one."""
        import readline
        if number == 0:
            before, is_behind, word = os.fsencode(readline.get_line_buffer()[: readline.get_endidx()]).rpartition(b" ")
            ways = self.paths(word) if is_behind else [it for it in map(os.fsencode, LINES) if it.startswith(word)]
            self.found = [os.fsdecode(it) for it in ways]
        return self.found[number] if number < len(self.found) else None

    def paths(self, word):
        """The paths that begin with this word."""
        above, mark, start = word.rpartition(b"/")
        if not mark or word[:1] != b"/":
            return []
        wanted = names.unescaped(start)
        return [above + b"/" + typable(name) for _, name in self.rows(above or b"/") if names.unescaped(name).startswith(wanted)]

    def rows(self, path):
        """The rows of a directory, which aren't shown; none of what is none. A violation is shown."""
        self.session.at_prompt = False
        came = self.session.answer(b"ls " + path + b"\n", shown=False)
        self.session.at_prompt = True
        first, *rows = came.split(b"\n")[:-1] or [b""]
        if first.startswith(VIOLATION):
            self.session.show(b"\n" + came)
        return [tuple(it.split(b" ", 1)) for it in rows] if first.startswith(b"list ") else []


def typable(name):
    """A name as it may stand in a line that is typed: in its letters, but for spaces and what doesn't show."""
    return names.readable(name).replace(b" ", b"\\x20")


def complete_paths(session):
    """Has the Tab key complete what is typed."""
    import readline
    readline.set_completer_delims(" ")
    readline.set_completer(Completion(session))
    readline.parse_and_bind("tab: complete")
