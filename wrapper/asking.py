"""A session whose lines the wrapper asks itself, for what no line does: `rm -r`, `update`, `ls -l` and other lists."""
import os
import select
import signal
import time

import telling
from lines import Session
from running import end, read_whole, shown, wait
from showing import OUTPUT_FAULT

# How an answer begins that refuses a line.
ERROR = b"error "
OK = [b"ok"]
# The answer of a path that is no directory.
NO_DIRECTORY = b"error not-directory"
# Bytes that a pipe which takes any takes at once. So many are made ready of lines.
TAKEN_AT_ONCE = select.PIPE_BUF


class Stopped(Exception):
    """Nothing more is asked: an answer wasn't as wanted, a signal came, or the program ended."""


class Asker(Session):
    """The program, which answers lines that are asked here. What it answered stands in the way until it is whole."""

    # The texts and statuses where an error ended it, and where another answer did.
    refused = stopped = ("", 0)

    def __init__(self, program, call, first):
        # (in pieces, which are joined once: an answer has a megabyte and more)
        self.came, self.met, self.fault = [], None, None
        self.shown_at, self.is_shown, self.is_held = time.monotonic(), False, False
        super().__init__(program, call, first)

    def show(self, came):
        self.came.append(came)

    def ask(self, line):
        """The lines that answer this one."""
        if self.ended or self.is_to_end():
            raise Stopped
        self.came = []
        self.answer(line + b"\n")
        answer = b"".join(self.came).split(b"\n")[:-1]
        if not answer or self.is_to_end():
            raise Stopped
        return answer

    def ask_ahead(self, lines):
        """The answer of each line, which change nothing and have answers of one line. They are given before those in front of them are answered."""
        lines, ready, asked, start = iter(lines), b"", 0, b""
        while True:
            while len(ready) < TAKEN_AT_ONCE and (line := next(lines, None)) is not None:
                ready, asked = ready + line + b"\n", asked + 1
            if not asked:
                return
            can_take, can_give, _ = select.select([self.answers], [self.input] if ready else [], [])
            if can_take:
                came = self.take()
                if not came or self.is_to_end():
                    raise Stopped
                *whole, start = (start + came).split(b"\n")
                asked -= len(whole)
                yield from whole
            if can_give:
                ready = ready[self.give(ready[:TAKEN_AT_ONCE]) :]

    def give(self, piece):
        """Gives lines on, and tells how many bytes were taken: all where the program has ended, as its answers tell."""
        try:
            return os.write(self.input, piece)
        except OSError:
            return len(piece)

    def is_to_end(self):
        """Whether a signal came, and nothing is under way that has to be whole."""
        return self.signals and not self.is_held

    def change(self, line):
        """The lines that answer one that changes something."""
        return self.ask(line)

    def stop(self):
        raise Stopped

    def fail(self, answer, path):
        """Ends it with this answer, which was met at this path."""
        self.met = answer, path
        self.stop()

    def have(self, line, path):
        """Asks a line that has to be answered `ok`."""
        answer = self.change(line)
        if answer != OK:
            self.fail(answer[0], path)

    def stat(self, path):
        """What `stat` answers of a row that has to be there."""
        answer = self.ask(b"stat " + path)[0]
        if not answer.startswith(b"stat "):
            self.fail(answer, path)
        return answer

    def rows_in(self, path):
        """The rows of what has to be a directory."""
        rows = self.rows(path)
        if isinstance(rows, bytes):
            self.fail(rows, path)
        return rows

    def rows(self, path):
        """The rows of a directory, each its kind and its name as it is printed; the answer where it is none."""
        answer = self.ask(b"ls " + path)
        if not answer[0].startswith(b"list "):
            return answer[0]
        return [tuple(it.split(b" ", 1)) for it in answer[1:]]

    def tell(self, text):
        """Says each second how far it is, on one line of a terminal that is written over."""
        if os.isatty(2) and not self.call.is_quiet() and time.monotonic() > self.shown_at + 1:
            self.shown_at, self.is_shown = time.monotonic(), True
            shown(f"\rcryfs: {text}\x1b[K".encode())

    def hide(self):
        """Clears that line."""
        if self.is_shown:
            shown(b"\r\x1b[K")
            self.is_shown = False

    def finish(self, work):
        """Does the work, closes the session, which keeps what was done, prints what came of it, and ends with its status."""
        done = None
        try:
            # (it ends before any line where it doesn't open)
            done = None if self.ended else work()
        except Stopped:
            pass
        self.hide()
        if self.signals:
            telling.say("closing; a second interrupt stops it at once")
        os.close(self.input)
        self.drain()
        status = wait(self.process)
        if self.signals and status in (0, -signal.SIGTERM):
            status = -self.signals[0]
        if self.fault:
            status = self.told(b"", status, *self.fault)
        elif self.met:
            answer, path = self.met
            self.call.said = os.fsdecode(answer)
            status = self.told(answer + b" " + path, status, *(self.refused if answer.startswith(ERROR) else self.stopped))
        elif status == 0 and done is not None:
            status = self.told(*done)
        end(status, read_whole(self.errors), self.call)

    def told(self, line, status=0, text=None, own=0):
        """Prints the line in which it ended, where there is one; the status, which is its own where the program's tells nothing."""
        shown_lines = b"".join(self.showing.line(it) for it in line.split(b"\n")) if line else b""
        try:
            telling.write_whole(self.output, shown_lines)
        except OSError:
            text, own = "output fault", OUTPUT_FAULT
        if status == 0 and text:
            os.write(self.errors, f"cryfs: {text}\n".encode())
        return status or own


def joined(path, name):
    """The path of a row in a directory."""
    return (b"" if path == b"/" else path) + b"/" + name
