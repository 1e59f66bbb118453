"""Cases of `./cryfs put` and `./cryfs get`: over a script that keeps what it got, and over the program that was built in this checkout."""
import os
import random
import signal

from hands_real import line, made
from hands_tree import LIMIT, Terminal, has, require, same, wait_until

# Bytes of files: none, one, one of a newline, a whole piece and a little more.
SIZES = {"empty": 0, "one": 1, "piece": 1 << 20, "more": (1 << 20) + 3}
# A program that keeps its password and the bytes behind it in files, then takes its time, and tells that it came to its end.
KEEPS = r"""#!/usr/bin/env python3
import os, signal, sys, time
signal.signal(signal.SIGINT, signal.SIG_DFL)
os.chdir(os.path.dirname(sys.argv[0]))
with open("password", "wb") as file:
    file.write(sys.stdin.buffer.readline())
with open("bytes", "wb", buffering=0) as file:
    while piece := sys.stdin.buffer.read1(65536):
        file.write(piece)
time.sleep(1)
open("end", "w").close()
if sys.argv[3] == "put":
    print("imported")
"""
# The same, but that it ends before it takes any bytes.
REFUSES = "#!/bin/sh\nIFS= read -r line\necho 'error exists /f'\necho 'cryfs: copy refused' >&2\nexit 13\n"
OUT = "crates/cryfs/out"
BEHIND = ("--password-file=pw", "b", "s")
FAULT = (8, "", "cryfs: input fault\n")


def filled(tree, name, size):
    with open(f"{tree.top}/{name}", "wb") as file:
        file.write(random.Random(size).randbytes(size))


def shell(tree, words):
    return tree.run("-c", words, script="/bin/sh")


def kept(tree, program=KEEPS):
    """The tree with such a program, and a password in a file."""
    tree.built(program).write("pw", "pw\n")
    return tree


def has_ended(tree):
    """Whether the program met the end of its input."""
    return os.path.exists(f"{tree.top}/{OUT}/end")


def begun(tree, *words):
    """A run whose program has begun to take bytes and which waits for more."""
    started = tree.start(*BEHIND, *words)
    started.stdin.write(b"x" * 100000)
    started.stdin.flush()
    wait_until(lambda: len(tree.read(f"{OUT}/bytes")) == 100000, "the first bytes never came")
    return started


def an_input_behind_a_password_comes_as_it_is(tree):
    kept(tree)
    filled(tree, "f", 3000000)
    for words in ("<f", "<fifo", "</dev/null"):
        writes = "mkfifo fifo; cat f >fifo &" if "fifo" in words else ""
        same(shell(tree, f"{writes} ./cryfs --password-file pw b s put /f {words}"), (0, "imported\n", ""), words)
        same(shell(tree, f"cmp {OUT}/password pw && cmp {OUT}/bytes {'/dev/null' if 'null' in words else 'f'}"), (0, "", ""), words)


def an_input_that_cannot_be_read_stops_a_put(tree):
    kept(tree)
    filled(tree, "f", 40)
    for words in ("<&-", "0>g"):
        same(shell(tree, f"./cryfs --password-file pw b s put /f {words}"), FAULT, words)
    status, out, _ = shell(tree, "./cryfs --password-file pw b s put /f <.")
    same((status != 0, out), (True, ""), "a folder as the input")
    require(not has_ended(tree), "the program took what came for all")


def a_password_file_that_is_the_input_is_refused(tree):
    kept(tree)
    filled(tree, "rest", 3000000)
    same(shell(tree, "cat pw rest >both; mkfifo fifo; ln both linked; ln -s both named")[0], 0, "the inputs")
    for words in ("put /f", "shell", "passwd"):
        for option, given in (("/dev/stdin", "<both"), ("both", "<both"), ("linked", "<both"), ("named", "<both"), ("/dev/fd/0", "<fifo")):
            before = "cat both >fifo 2>/dev/null &" if "fifo" in given else ""
            for call in (f"--password-file {option}", f"--password-file={option}"):
                status, out, errors = shell(tree, f"{before} ./cryfs {call} b s {words} {given}")
                same((status, out, errors.count("\n")), (1, "", 1), f"{call} {words}: {errors}")
                has(errors, f"{option} is the input too", "the input's first line is the password")
        same(shell(tree, f"cat both | ./cryfs --password-file /dev/stdin b s {words}")[0], 1, f"a pipe: {words}")
    same(tree.read(f"{OUT}/password"), "", "what the program got")
    for words in ("info", "get /f"):
        same(shell(tree, f"./cryfs --password-file /dev/stdin b s {words} <both")[0], 0, words)
        same((tree.read(f"{OUT}/password"), tree.read(f"{OUT}/bytes")), ("pw\n", ""), words)
    same(shell(tree, "./cryfs --password-file pw b s put /f <both")[0], 0, "two files")


def a_stopped_wrapper_stops_its_program(tree):
    kept(tree)
    for words in (("put", "/f"), ("shell",)):
        for number in (signal.SIGKILL, signal.SIGQUIT, signal.SIGTERM, signal.SIGHUP):
            started = begun(tree, *words)
            started.send_signal(number)
            same(started.wait(LIMIT), -number, f"{words} after signal {number}")
            same(started.communicate(timeout=LIMIT), (b"", b""), f"{words} after signal {number}")
            require(not has_ended(tree), f"{words} after signal {number}: the program took what came for all")
            os.remove(f"{tree.top}/{OUT}/bytes")


def an_interrupt_stops_both(tree):
    kept(tree)
    started = begun(tree, "put", "/f")
    os.killpg(started.pid, signal.SIGINT)
    same(started.wait(LIMIT), -signal.SIGINT, "after an interrupt")
    started.communicate(timeout=LIMIT)
    require(not has_ended(tree), "the program took what came for all")


def a_program_that_ends_first_ends_a_put(tree):
    kept(tree, REFUSES)
    for size in (0, 1 << 20):
        started = tree.start(*BEHIND, "put", "/f")
        try:
            started.stdin.write(b"x" * size)
            started.stdin.flush()
        except BrokenPipeError:
            require(size, "an input without bytes")
        same(started.wait(LIMIT), 13, f"behind {size} bytes of an input that goes on")
        same(started.stdout.read(), b"error exists /f\n", "the answer")
        causes, _, last = started.stderr.read().decode().rpartition("cryfs: copy refused\n")
        require(tree.is_cause(13, causes) and not last, f"what is told: {causes}{last}")


def a_status_is_explained_for_its_command(tree):
    kept(tree).write("f", "x")
    for command, number, text, told, untold in (
            ("get", 13, "copy refused", "`get` or `look` found no file at PATH", "the output names it"),
            ("put", 13, "copy refused", "`put` met what is there, where the output says `exists`: `rm` it first", "`get`"),
            ("put", 8, "input fault", "`put` couldn't read the file to its end, and may have left a part: `rm` PATH", "`get`"),
            ("put", 3, "configuration does not open", "`put` took the file's first line for the password", "`get`"),
            ("get", 3, "configuration does not open", "the password is another one", "`put`"),
            ("get", 8, "input fault", "the input, the clock or the random bytes failed", "`put`")):
        answer = "echo error exists /f; " if (command, number) == ("put", 13) else ""
        tree.write(f"{OUT}/cryfs", f"#!/bin/sh\ncat >/dev/null\n{answer}echo 'cryfs: {text}' >&2\nexit {number}\n", 0o755)
        terminal = Terminal(tree, "-c", f"./cryfs --password-file pw b s {command} /f <f", script="/bin/sh")
        status, seen = terminal.end()
        same((status, told in seen, untold in seen), (number, True, False), f"{command} {number}: {seen}")


def a_file_comes_back_equal(tree):
    made(tree)
    for name, size in SIZES.items():
        filled(tree, name, size)
        told = f"imported 0 1 0 {size}\n"
        same(shell(tree, f"cat pw {name} | ./cryfs b s put /{name}"), (0, told, ""), f"put of {size} bytes")
        same(shell(tree, f"./cryfs --password-file pw b s put /{name}2 <{name}"), (0, told, ""), f"put of {size} bytes behind a password file")
        for path in (name, f"{name}2"):
            same(shell(tree, f"./cryfs b s get /{path} <pw >out"), (0, "", ""), f"get of {size} bytes")
            same(shell(tree, f"cmp out {name}"), (0, "", ""), f"{size} bytes")
    same(shell(tree, "./cryfs --password-file pw b s get /more </dev/null | cmp - more"), (0, "", ""), "get behind a password file")


def what_is_not_put_or_got_is_told(tree):
    made(tree)
    refused = "cryfs: copy refused\n"
    filled(tree, "f", 40)
    same(shell(tree, "cat pw f | ./cryfs b s put /f")[0], 0, "put")
    same(line(tree, "mkdir", "/d"), "ok\n", "a directory")
    same(line(tree, "symlink", "f", "/l"), "ok\n", "a link")
    for path, error in (("/f", "exists"), ("/d", "exists"), ("/none/f", "no-entry"), ("/f/g", "not-directory"), ("/", "exists")):
        same(shell(tree, f"cat pw f | ./cryfs b s put {path}"), (13, f"error {error} {path}\n", refused), f"put {path}")
    for path in ("/none", "/d", "/l", "/"):
        same(shell(tree, f"./cryfs b s get {path} <pw"), (13, "", refused), f"get {path}")
    same(shell(tree, "./cryfs b s get /f <pw >/dev/full"), (9, "", "cryfs: output fault\n"), "a full output")
    for words in ("put /g <f", "get /f <f"):
        same(shell(tree, f"./cryfs b s {words}")[0], 3, f"a wrong password: {words}")
    same(line(tree, "ls", "/"), "list 3\nd d\nf f\nl l\n", "what stands there")


def an_input_that_cannot_be_read_is_no_file(tree):
    made(tree)
    for words in ("<&-", "0>g"):
        same(shell(tree, f"./cryfs --password-file pw b s put /f {words}"), FAULT, words)
        same(shell(tree, f"./cryfs b s put /f {words}"), FAULT, f"{words}, and for the password too")
    for option in ("", "--password-file pw"):
        status, out, _ = shell(tree, f"./cryfs {option} b s put /f <.")
        same((status != 0, out), (True, ""), "a folder as the input")
    same(shell(tree, "./cryfs b s get /f <pw"), (13, "", "cryfs: copy refused\n"), "no such file")
    same(line(tree, "ls", "/"), "list 0\n", "what was made")


def a_put_that_is_stopped_tells_no_file(tree):
    made(tree)
    for number in (signal.SIGKILL, signal.SIGTERM):
        started = tree.start(*BEHIND, "put", "/f")
        started.stdin.write(b"x" * (3 << 20))
        started.stdin.flush()
        started.send_signal(number)
        same(started.wait(LIMIT), -number, f"after signal {number}")
        same(started.communicate(timeout=LIMIT), (b"", b""), f"after signal {number}")
        wait_until(lambda: tree.run("b", "s", "ls", "/", given=b"pw\n")[0] == 0, "the lock stays")
        if line(tree, "ls", "/") != "list 0\n":
            same(line(tree, "rm", "/f"), "ok\n", "a part that was left")
    filled(tree, "f", 40)
    same(shell(tree, "./cryfs --password-file pw b s put /f <f"), (0, "imported 0 1 0 40\n", ""), "the whole file")


CASES = [an_input_behind_a_password_comes_as_it_is, an_input_that_cannot_be_read_stops_a_put, a_password_file_that_is_the_input_is_refused,
         a_stopped_wrapper_stops_its_program, an_interrupt_stops_both, a_program_that_ends_first_ends_a_put,
         a_status_is_explained_for_its_command]
REAL = [a_file_comes_back_equal, what_is_not_put_or_got_is_told, an_input_that_cannot_be_read_is_no_file, a_put_that_is_stopped_tells_no_file]
