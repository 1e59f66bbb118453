"""Lines for a session: typed at a terminal with a prompt, or handed on behind a password from elsewhere."""
import os
import select
import signal
import sys
import termios
import threading

import beside
import running
import telling
import typed
from passwords import TERMINAL_LINE
from showing import OUTPUT_FAULT, Showing
from telling import say

PROMPT = "cryfs> "
# The program's status where its input couldn't be read.
INPUT_FAULT = 8
VIOLATION = b"violation "
# More bytes than a line has that tells how many rows follow.
LIST_LINE = 32
ENDING = (signal.SIGINT, signal.SIGTERM, signal.SIGHUP)
BANNER = "type lines: help shows them, exit or Ctrl-D ends. "
KEPT = "What was answered ok is kept by sync and at the end, also after one Ctrl-C; a second Ctrl-C stops at once"
NOT_KEPT = "All of it is in memory, and nothing is kept"
CUT = (f"not taken: a terminal cuts lines of {TERMINAL_LINE} bytes and more without a word. Give long lines by a file or a pipe, "
       "as docs/USING.md shows")


class Interrupted(Exception):
    """A signal came at the prompt."""


class Session:
    """The program, which answers what is typed line by line. A first signal ends its input, a second one stops it."""

    def __init__(self, program, call, first):
        self.errors = running.in_memory()
        given, self.input = running.pipe()
        self.answers, taken = running.pipe()
        self.process = running.start(program, call, {0: given, 1: taken, 2: self.errors}, (signal.SIGINT, signal.SIGHUP))
        os.close(given)
        os.close(taken)
        self.call, self.showing, self.signals, self.at_prompt = call, Showing(call), [], False
        self.ended = self.lost = False
        # What is edited is shown by the file 1; answers go where that was.
        self.output = os.dup(1)
        os.dup2(2, 1)
        for it in ENDING:
            # (what the caller ignores, as nohup does, ends nothing)
            if signal.getsignal(it) != signal.SIG_IGN:
                signal.signal(it, self.heed)
        if first is not None:
            # The answer to an empty line, which isn't shown, tells that the file system is open.
            self.answer(first + b"\n", shown=False)

    def heed(self, number, _):
        self.signals.append(number)
        if len(self.signals) > 1:
            os.kill(self.process, signal.SIGTERM)
        elif self.at_prompt:
            raise Interrupted

    def answer(self, lines, shown=True):
        """Gives lines on whose last one is answered, and passes its answer on to its end, or gives it where it isn't to be shown."""
        try:
            telling.write_whole(self.input, lines)
        except OSError:
            self.drain()
            return b""
        left, start, more, unshown = 1, b"", None, []
        while left > 0:
            came = self.take()
            if not came:
                break
            if shown:
                self.show(came)
            else:
                unshown.append(came)
            left -= came.count(b"\n")
            if more is None:
                start += came[:LIST_LINE]
                more = lines_behind(start)
                left += more or 0
                if start.startswith(VIOLATION):
                    self.call.said = os.fsdecode(start)
        return b"".join(unshown)

    def take(self):
        """What the program answers next; nothing where it ended."""
        came = b"" if self.ended else os.read(self.answers, 65536)
        self.ended = not came
        return came

    def show(self, came):
        """Passes an answer on. Where nobody takes it the program is told so at its next one."""
        try:
            telling.write_whole(self.output, self.showing.take(came))
        except OSError:
            os.close(self.answers)
            self.ended = self.lost = True

    def drain(self):
        """Passes on what still comes."""
        while came := self.take():
            self.show(came)

    def close(self):
        """Ends the input, passes on what still comes, and ends as the program does."""
        if self.signals:
            say("closing; a second interrupt stops it at once")
        os.close(self.input)
        self.drain()
        status = running.wait(self.process)
        if len(self.signals) > 1 and status == -signal.SIGTERM:
            status = -self.signals[0]
        if self.lost and status in (0, -signal.SIGPIPE):
            status = OUTPUT_FAULT
            os.write(self.errors, b"cryfs: output fault\n")
        running.end(status, running.read_whole(self.errors), self.call)


def lines_behind(start):
    """How many lines of an answer follow its first one, by how that begins; None where too little of it came."""
    line, mark, _ = start.partition(b"\n")
    if mark and line.startswith(b"list ") and line[5:].isdigit():
        return int(line[5:])
    return 0 if mark or len(start) >= LIST_LINE else None


def typed_line(read):
    """The next line that is typed, without its newline; None at the end."""
    line = b""
    while not line.endswith(b"\n"):
        piece = read()
        if not piece:
            return line or None
        line += piece
    return line[:-1]


def next_line(session, edits):
    """The next line at the prompt; None where the input or the program ended."""
    session.at_prompt = True
    try:
        if session.signals:
            return None
        if edits:
            return input(PROMPT).encode("utf-8", "surrogateescape")
        if os.isatty(2):
            os.write(2, PROMPT.encode())
        return typed_line(lambda: read_beside(session))
    except (Interrupted, EOFError, OSError):
        return None
    finally:
        session.at_prompt = False


def edits_lines(session):
    """Whether lines can be edited, with those before them at hand. These are in memory alone: nothing that was typed is kept."""
    if os.environ.get("TERM", "dumb") == "dumb" or not os.isatty(2):
        return False
    try:
        import readline
    except ImportError:
        return False
    # (a paste of several lines is several lines)
    readline.parse_and_bind("set enable-bracketed-paste off")
    sys.stdin.reconfigure(encoding="utf-8", errors="surrogateescape")
    typed.complete_paths(session)
    give_back_at_stops(readline.get_line_buffer)
    return True


def give_back_at_stops(line):
    """Has a stop (Ctrl-Z) give the terminal back as it was, and take it again afterwards with the line so far."""
    before = termios.tcgetattr(0)

    def stop(number, _):
        edited = termios.tcgetattr(0)
        termios.tcsetattr(0, termios.TCSADRAIN, before)
        signal.signal(number, signal.SIG_DFL)
        os.kill(os.getpid(), number)
        # Here it goes on.
        signal.signal(number, stop)
        termios.tcsetattr(0, termios.TCSADRAIN, edited)
        os.write(2, os.fsencode(PROMPT + line()))

    signal.signal(signal.SIGTSTP, stop)


def read_beside(session):
    """What is typed; nothing where the program ended meanwhile."""
    ready = select.select([0, session.answers], [], [])[0]
    if session.answers in ready:
        came = session.take()
        session.show(came)
        return b"" if session.ended else read_beside(session)
    return os.read(0, 65536)


def run_typed(program, call, first):
    """A session at a terminal."""
    session = Session(program, call, first)
    if not session.ended:
        say(BANNER + (KEPT if call.takes_password() else NOT_KEPT))
    edits = edits_lines(session)
    while not session.ended and not session.signals:
        line = next_line(session, edits)
        if line is None and not session.signals and os.isatty(2):
            # (what is shown next begins a line)
            os.write(2, b"\n")
        if line is None or line.strip() in (b"exit", b"quit"):
            break
        if line.strip() == b"help":
            telling.write_whole(2, telling.read_text("lines.txt").encode())
        elif len(line) >= TERMINAL_LINE:
            say(CUT)
        elif line:
            session.answer((typed.exact_line(line) if call.takes_plain() else line) + b"\n")
    session.close()


def run_behind(program, call, first):
    """A session whose password comes from elsewhere, and whose lines, or whose file's bytes, are the input."""
    given, into = running.pipe()
    # Its other end is the program's alone, so that it ends with the program.
    lives, held = beside.pipe()
    os.set_inheritable(held, True)
    errors, output = running.in_memory(), running.output_of(call)
    process = running.start(program, call, {0: given, 2: errors, **output.streams()}, ends_with_this=True)
    os.close(given)
    os.close(held)
    output.begin()
    ended = running.hold_open(process, lives)
    passing = threading.Thread(target=output.drain)
    passing.start()
    for it in (signal.SIGTERM, signal.SIGHUP):
        signal.signal(it, lambda number, _: os.kill(process, number))
    signal.signal(signal.SIGINT, signal.SIG_IGN)
    is_whole = hand_on(first, into, lives)
    if not is_whole and call.takes_bytes():
        # What came isn't the file: the program mustn't take its end for the file's.
        os.kill(process, signal.SIGKILL)
        os.write(errors, b"cryfs: input fault\n")
    os.close(into)
    running.let_end(ended)
    status = running.wait(process)
    passing.join()
    is_cut = call.takes_bytes() and not is_whole
    running.end(*output.ended(INPUT_FAULT if is_cut else status, running.read_whole(errors)), call)


def hand_on(first, into, lives):
    """Puts these bytes and then the input into the pipe, until the input or the program ends. Whether the input could be read."""
    piece = first
    while piece:
        try:
            telling.write_whole(into, piece)
        except OSError:
            return True
        try:
            if lives in select.select([0, lives], [], [])[0]:
                return True
            piece = os.read(0, 65536)
        except OSError:
            return False
    return True
