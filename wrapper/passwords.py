"""Where the password comes from: a terminal, a file, a command, or the input's first line."""
import os
import signal
import termios

from telling import USAGE, Refused, named

# The most bytes of a password's line that the program takes.
LIMIT = 1048576
# A terminal cuts a line at 4,095 bytes and says nothing; one of 4,094 may be whole, and is refused to be sure.
TERMINAL_LINE = 4094
ON_PURPOSE = "an empty password on purpose is an empty line: echo | cryfs BLOCKS STATE {}"


class Signalled(BaseException):
    """A signal came while the terminal was asked."""


class Terminal:
    """The caller's terminal, which doesn't show what is typed as long as this is in use."""

    def __init__(self):
        try:
            self.file = os.open("/dev/tty", os.O_RDWR | os.O_NOCTTY)
            self.before = termios.tcgetattr(self.file)
        except (OSError, termios.error):
            raise Refused("there is no terminal to ask for the password: give it as the first line of a pipe or a file, "
                          "or by --password-file or --password-command") from None

    def __enter__(self):
        self.handlers = {it: signal.getsignal(it) for it in (signal.SIGINT, signal.SIGTERM, signal.SIGHUP, signal.SIGQUIT, signal.SIGTSTP)}
        for it in self.handlers:
            signal.signal(it, stop_asking if it != signal.SIGTSTP else signal.SIG_IGN)
        hidden = list(self.before)
        hidden[3] &= ~termios.ECHO
        termios.tcsetattr(self.file, termios.TCSADRAIN, hidden)
        return self

    def __exit__(self, kind, caught, trace):
        termios.tcsetattr(self.file, termios.TCSADRAIN, self.before)
        for it, handler in self.handlers.items():
            signal.signal(it, handler)
        os.close(self.file)
        if kind is Signalled:
            die_of(caught.args[0])

    def ask(self, prompt):
        """A line that is typed, which is never empty."""
        os.write(self.file, os.fsencode(prompt))
        typed = b""
        while not typed.endswith(b"\n"):
            piece = os.read(self.file, 65536)
            if not piece:
                break
            typed += piece
        os.write(self.file, b"\n")
        typed = typed[:-1] if typed.endswith(b"\n") else typed
        if not typed:
            raise Refused("an empty password is refused at a terminal; " + ON_PURPOSE.format("COMMAND"))
        if len(typed) >= TERMINAL_LINE:
            raise Refused(f"a terminal cuts lines of {TERMINAL_LINE} bytes and more: give such a password by --password-file")
        return typed

    def ask_new(self, prompt):
        """A line that is typed twice."""
        typed = self.ask(f"{prompt}: ")
        if self.ask(f"{prompt} again: ") != typed:
            raise Refused("these are two different passwords")
        return typed


def stop_asking(number, _):
    raise Signalled(number)


def die_of(number):
    """Ends this process as the signal would have."""
    if number != signal.SIGKILL:
        signal.signal(number, signal.SIG_DFL)
    os.kill(os.getpid(), number)


def asked_lines(call):
    """The lines before the others, as a person types them."""
    with Terminal() as terminal:
        if call.command == "create":
            return terminal.ask_new("Password") + b"\n"
        lines = b"" if call.source else terminal.ask("Password: ") + b"\n"
        if call.command == "passwd":
            lines += terminal.ask_new("New password") + b"\n"
        return lines


def source_line(call):
    """The line that the file or the command of a call gives."""
    option, value = call.source
    text = read_file(value) if option == "--password-file" else read_command(value)
    line, mark, _ = text.partition(b"\n")
    if not text:
        raise Refused(f"{option} gave nothing: an empty password on purpose is an empty line")
    call.has_return = line.endswith(b"\r")
    return line + b"\n"


def only_line(call):
    """The line by which it opens, from wherever it comes."""
    if call.source:
        return source_line(call)
    if os.isatty(0):
        return asked_lines(call)
    given = lines_given(1, call.command)
    if given is None:
        raise Refused("the input can't be read, whose first line is the password")
    call.has_return = given.rstrip(b"\n").endswith(b"\r")
    return given if given.endswith(b"\n") else given + b"\n"


def check_apart(source):
    """Refuses a password's file that is the input too: of its bytes some would be lost, or come twice."""
    option, value = source
    try:
        is_input = option == "--password-file" and os.path.samestat(os.stat(value), os.fstat(0))
    except OSError:
        return
    if is_input:
        raise Refused(f"{value} is the input too: without {option} the input's first line is the password; else name another file", USAGE)


def read_file(path):
    try:
        with open(path, "rb") as file:
            return file.read(LIMIT + 2)
    except OSError as why:
        raise Refused(f"the password's file {named(path)} can't be read: {why.strerror}") from None


def read_command(words):
    import subprocess
    ended = subprocess.run(["/bin/sh", "-c", words], stdin=subprocess.DEVNULL, stdout=subprocess.PIPE, check=False)
    if ended.returncode:
        raise Refused(f"the password command ended with {ended.returncode}")
    return ended.stdout


def lines_given(count, command):
    """So many first lines of the input, or all of it where it ends before; the last of them has to come at all."""
    given = b""
    while given.count(b"\n") < count and len(given) <= 2 * LIMIT + 2:
        try:
            piece = os.read(0, 65536)
        except OSError:
            # The program meets the same, and says so.
            return None
        if not piece:
            break
        given += piece
    lines = given.split(b"\n", count)
    if not given or len(lines) < count or not (lines[count - 1] or len(lines) > count):
        which = "new password" if command == "passwd" else "password"
        raise Refused(f"the input ended before the {which}: nothing was done; {ON_PURPOSE.format(command)}")
    return b"".join(line + b"\n" for line in lines[:count]) if len(lines) > count else given
