"""What the program answers, as it is shown: names as people read them, counts in words, and of a short check only what is wrong.
In a script all comes as the program prints it."""
import os
import signal

import telling
from counts import Counts
from names import readable_line

# How lines begin that tell why something wasn't done; `check --all` tells of a block in the midst of one.
REASONS = (b"error ", b"violation ", b"fault ", b"memory", b"spent")
VERDICT = b" violation "
# How a run of one line ends that was done itself, and whose answer is no reply, where that is asked for.
ANSWERED, TEXT = 18, "error answered"
# The program's status where an answer couldn't be written.
OUTPUT_FAULT = 9


class Showing:
    """What comes out of a run, line by line. A line is shown once it is whole."""

    def __init__(self, call):
        self.call, self.counts, self.held, self.reason = call, Counts(), [], None
        self.is_plain, self.is_worded, self.is_brief = call.shows_plain(), call.counts_in_words(), call.is_brief()
        self.is_seen = os.isatty(1)

    def is_needed(self):
        """Whether what comes isn't all to be shown as it is."""
        return (self.is_plain and self.call.answers_names()) or self.is_worded or self.is_brief or self.is_strict()

    def is_strict(self):
        return self.call.is_strict and self.call.is_line()

    def take(self, piece):
        """What is shown once this piece came."""
        self.held.append(piece)
        if b"\n" not in piece:
            return b""
        *lines, left = b"".join(self.held).split(b"\n")
        self.held = [left]
        return b"".join(map(self.line, lines))

    def rest(self):
        """What is shown at the end: a line that wasn't ended is as it is."""
        return b"".join(self.held)

    def line(self, line):
        """A line as it is shown."""
        if self.reason is None and (line.startswith(REASONS) or VERDICT in line):
            self.reason = line
        if self.is_brief and line.startswith(b"block ") and line.count(b" ") == 2:
            return b""
        if self.is_worded and line.isascii():
            line = self.counts.in_words(line.decode()).encode()
        return (readable_line(line) if self.is_plain else line) + b"\n"

    def ended(self, status, last):
        """The status of the run, and the program's last line."""
        # (what a session answered in its midst is no reason why it ended)
        if not self.call.takes_lines():
            self.call.said = os.fsdecode(self.reason or b"")
        if status == 0 and self.is_strict() and self.reason is not None:
            return ANSWERED, f"cryfs: {TEXT}\n".encode()
        return status, last


class Output:
    """The way of the program's answers: straight, or by a pipe to where they are shown. Where that fails the program is told at its next answer."""

    def __init__(self, showing, make_pipe):
        self.showing, self.is_passed, self.is_lost = showing, showing.is_needed(), False
        self.is_open = self.is_passed
        self.answers, self.taken = make_pipe() if self.is_passed else (None, None)

    def streams(self):
        """The streams of the program that it needs."""
        return {1: self.taken} if self.is_passed else {}

    def begin(self):
        """Leaves the program's end of the pipe to that alone."""
        if self.is_passed:
            os.close(self.taken)

    def take(self):
        """Passes on what came next."""
        try:
            piece = os.read(self.answers, 65536)
            telling.write_whole(1, self.showing.take(piece) if piece else self.showing.rest())
        except OSError:
            piece, self.is_lost = b"", True
        if not piece:
            os.close(self.answers)
            self.is_open = False

    def drain(self):
        """Passes on all that still comes."""
        while self.is_open:
            self.take()

    def ended(self, status, last):
        """The status of the run, and the program's last line."""
        if self.is_lost and status in (0, -signal.SIGPIPE):
            return OUTPUT_FAULT, b"cryfs: output fault\n"
        return self.showing.ended(status, last) if self.is_passed else (status, last)
