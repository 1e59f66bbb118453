"""The program as it is run below this process, and what is said of its status."""
import os
import select
import signal
import sys
import tty

import flushing
import looking
import state_copy
import telling
from passwords import die_of
from showing import Output, Showing
from telling import Refused, say

# PR_SET_PDEATHSIG of prctl(2), which stays over exec.
SIGNAL_AT_PARENTS_END = 1
# The program's status after a violation.
VIOLATION = 5
# What clears the rest of a terminal's line.
CLEARS = b"\x1b[K"
# So many causes are told in a pipe.
CAUSES_IN_PIPES = 2


def kept_apart(file):
    """The same file under a number above those of the standard streams."""
    if file > 2:
        return file
    import fcntl
    higher = fcntl.fcntl(file, fcntl.F_DUPFD_CLOEXEC, 3)
    os.close(file)
    return higher


def in_memory(given=b""):
    """A file without a name that holds these bytes, at its start."""
    file = kept_apart(os.memfd_create("cryfs"))
    telling.write_whole(file, given)
    os.lseek(file, 0, os.SEEK_SET)
    return file


def pipe():
    ends = os.pipe()
    return kept_apart(ends[0]), kept_apart(ends[1])


def become(program, words, streams, ignored=()):
    """Puts the program in this process's place, over these files as its streams, and with these signals ignored."""
    for number, file in streams.items():
        os.dup2(file, number)
    # (python ignores these two, and the program would go on ignoring them)
    for it in (signal.SIGPIPE, signal.SIGXFSZ):
        signal.signal(it, signal.SIG_DFL)
    for it in ignored:
        signal.signal(it, signal.SIG_IGN)
    try:
        os.execv(program, [program, *words])
    except OSError as why:
        raise Refused(f"the program can't be run: {why}") from None


def start(program, call, streams, ignored=(), ends_with_this=False):
    """The process of the program, begun below this one, and stopped where this one ends before it if that is asked. What else it is to
    have open here has a number above those of the files that a program is given."""
    this = os.getpid()
    lent = flushing.lend(call.blocks) if call.writes_blocks() else {}
    process = os.fork()
    if process:
        flushing.let_go(lent)
        return process
    try:
        if ends_with_this:
            end_with(this)
        become(program, call.words(), {**streams, **lent}, ignored)
    except Refused as why:
        say(why)
    finally:
        os._exit(telling.NOT_RUN)


def end_with(parent):
    """Has the system stop this process when its parent ends, however that ends, where python can ask for it."""
    try:
        import ctypes
        ctypes.CDLL(None).prctl(SIGNAL_AT_PARENTS_END, ctypes.c_ulong(signal.SIGKILL))
    except (ImportError, OSError, AttributeError):
        return
    # (it may have ended before)
    if os.getppid() != parent:
        os._exit(telling.NOT_RUN)


def hold_open(process, lives):
    """Begins a process that has all of this one's pipes open until a byte comes on the file that is given back, or the
    program has ended. So where this process is stopped, its pipes' end isn't taken for the input's: the program is stopped."""
    said, ended = pipe()
    if os.fork():
        os.close(said)
        return ended
    try:
        os.close(ended)
        for it in (signal.SIGINT, signal.SIGQUIT, signal.SIGTERM, signal.SIGHUP):
            signal.signal(it, signal.SIG_IGN)
        nowhere = os.open(os.devnull, os.O_RDWR)
        for it in (0, 1, 2):
            os.dup2(nowhere, it)
        if lives not in select.select([said, lives], [], [])[0] and not os.read(said, 1):
            os.kill(process, signal.SIGKILL)
            os.read(lives, 1)
    finally:
        os._exit(0)


def let_end(ended):
    """Says on this file that the input has ended, where the process that waits for it hasn't ended with the program."""
    try:
        os.write(ended, b".")
    except BrokenPipeError:
        pass


def wait(process):
    """The status of a process, negative for a signal."""
    status = os.waitpid(process, 0)[1]
    return -os.WTERMSIG(status) if os.WIFSIGNALED(status) else os.WEXITSTATUS(status)


def output_of(call):
    """The way of the answers."""
    return Output(Showing(call), pipe)


def start_below(program, call, given, errors, output):
    """The process of the program, with signals handed on to it."""
    streams = {2: errors, **output.streams()} if given is None else {0: in_memory(given), 2: errors, **output.streams()}
    process = start(program, call, streams, ends_with_this=True)
    # An interrupt reaches both by the terminal; what is sent to this process alone is handed on.
    for it in (signal.SIGINT, signal.SIGQUIT):
        signal.signal(it, signal.SIG_IGN)
    for it in (signal.SIGTERM, signal.SIGHUP):
        signal.signal(it, lambda number, _: os.kill(process, number))
    return process


def run_below(program, call, given):
    """Runs the program, passes on what it says as it comes, and ends as it did. Where a person looks on it says how far it is."""
    is_watched = os.isatty(2) and call.tells_how_far()
    side, errors = terminal() if is_watched else pipe()
    output = output_of(call)
    process = start_below(program, call, given, errors, output)
    os.close(errors)
    output.begin()
    last, is_shown = handed_on(side, is_watched, output)
    status, told = output.ended(wait(process), last)
    end(status, told, call, is_shown=is_shown and told is last)


def terminal():
    """A terminal of the program's own, for what it says as it goes on, and the side where that comes out as it is."""
    side, errors = map(kept_apart, os.openpty())
    tty.setraw(errors)
    return side, errors


def handed_on(side, is_watched, output):
    """Passes on to standard error what comes out until the program has ended, and gives the last of it, and whether that was passed on: a last
    line is held back, so that it stands behind all answers. Answers that come by a pipe are passed on beside that."""
    held = passed = b""
    while piece := came_out(side, output):
        held += piece
        cut = start_of_last(held) if not is_watched else start_of_line(held)
        shown(held[:cut])
        held, passed = held[cut:], (passed + held[:cut])[-4096:]
    return (held, False) if held or not is_watched else (passed, True)


def start_of_line(held):
    """Where the last line begins, behind one that is written over and the line's end that follows it; the end of what tells how far it is."""
    if not held.endswith(b"\n"):
        return len(held)
    cleared = held.rfind(CLEARS) + len(CLEARS) if CLEARS in held else 0
    return max(start_of_last(held), cleared + (cleared > 0 and held[cleared:cleared + 1] == b"\n"))


def came_out(side, output):
    """What came out next; nothing at the end, behind the last answer."""
    while output.is_open and side not in select.select([side, output.answers], [], [])[0]:
        output.take()
    try:
        piece = os.read(side, 65536)
    except OSError:
        piece = b""
    if not piece:
        output.drain()
    return piece


def start_of_last(lines):
    """Where the last line begins."""
    return lines.rstrip(b"\n").rfind(b"\n") + 1


def shown(said):
    """To standard error, which may be closed by now."""
    try:
        telling.write_whole(2, said)
    except OSError:
        pass


def read_whole(errors):
    """What the program said, where that is a file in memory."""
    size = os.fstat(errors).st_size
    return os.pread(errors, size, 0)


def end(status, said, call, is_shown=False):
    """Copies the record where that is asked, says what the program said last and what its status means, and ends as it did."""
    for it in (signal.SIGINT, signal.SIGTERM, signal.SIGHUP, signal.SIGQUIT):
        signal.signal(it, signal.SIG_IGN)
    cut = start_of_last(said) if status else len(said)
    if not is_shown:
        shown(said[:cut])
    if call.makes_state:
        looking.narrow(call.state)
    failure, last = state_copy.bring(call), said[cut:]
    if failure and not status:
        status, last, is_shown = state_copy.NOT_COPIED, f"cryfs: {state_copy.TEXT}\n".encode(), False
    at_terminal = os.isatty(2)
    if at_terminal:
        shown(b"" if is_shown else last)
    for line in ([failure] if failure else []) + told_lines(status, text_of(last), call, at_terminal):
        say(line)
    if not at_terminal:
        shown(last)
    if status < 0:
        die_of(-status)
    sys.exit(status if status >= 0 else 128 - status)


def text_of(last):
    """The text of a status in the line that tells it."""
    return os.fsdecode(last).strip().rpartition("cryfs: ")[2]


def told_lines(status, text, call, at_terminal):
    """What a status means: each likely cause where a person looks on, else the first ones in a line."""
    if at_terminal:
        return failure_lines(status, text, call) if status else success_lines(call)
    if status == -signal.SIGKILL or (status > 0 and text):
        causes = telling.meanings(status, text, call.command, known_of(status, call))[:CAUSES_IN_PIPES]
        return ["; ".join(causes)] if causes else []
    return []


def known_of(status, call):
    """What is known of the folders and words behind a run."""
    facts = [telling.RETURN] if call.has_return else []
    if call.copies():
        facts += [telling.A_FILE] * os.path.isfile(call.rest[1]) + [telling.NO_FOLDER] * (not os.path.lexists(call.rest[1]))
    mark = telling.mark_met(call.was_marked, looking.is_marked(call.state)) if status == VIOLATION else None
    return telling.Known(looking.is_used(status, call), mark, facts, call.said, call.directory())


def failure_lines(status, text, call):
    known = known_of(status, call)
    seen = looking.told_room(status, call) if known.is_used is False else []
    return seen + telling.meanings(status, text, call.command, known)


def success_lines(call):
    if call.command == "create":
        return [telling.STATE_MATTERS]
    if call.command == "look":
        return [telling.LOOKED]
    return looking.told_formats(call.state) if call.command == "info" else []
