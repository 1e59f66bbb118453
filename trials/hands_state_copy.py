"""Cases of `./cryfs --state-copy` over the program of `hands_model.py`: when STATE's record is copied, and what is refused. And over the program
that was built in this checkout: the way back from a STATE that is lost."""
import os
import shutil
import signal
import stat

from hands_asking import OUT, modelled, wants
from hands_model import record
from hands_real import CHEAP
from hands_real import line as asked
from hands_tree import LIMIT, Terminal, has, require, same, wait_until

RECORD = "cryfs.localstate"
FAULT = "cryfs: state not copied\n"


def held(tree, folder="c"):
    """The copy's bytes; nothing where there is none."""
    try:
        with open(f"{tree.top}/{folder}/{RECORD}", "rb") as file:
            return file.read()
    except FileNotFoundError:
        return b""


def keep(tree, folder, content):
    with open(f"{tree.top}/{folder}/{RECORD}", "wb") as file:
        file.write(content)


def copied(tree, *words, given=b"pw\n", options=()):
    return tree.run(*options, "--state-copy", "c", "b", "s", *words, given=given)


def filled(tree):
    """A file system whose record has its copy in `c`."""
    modelled(tree).write("pw", "pw\n")
    tree.write("f/a", "1")
    os.mkdir(f"{tree.top}/c", 0o700)
    same(copied(tree, "mkdir", "/first"), (0, "ok\n", "cryfs: c had no copy of STATE, and has one now\n"), "the first copy")
    same(held(tree), held(tree, "s"), "the first copy")
    return tree


def each_run_that_changes_something_brings_a_copy(tree):
    filled(tree)
    behind = ("--password-file", "pw")
    for number, (words, given, options) in enumerate((
            (("mkdir", "/a"), b"pw\n", ()), (("shell",), b"pw\nmkdir /b\n", ()), (("shell",), b"mkdir /c\n", behind), (("put", "/d"), b"pw\nbytes", ()),
            (("put", "/e"), b"bytes", behind), (("update", "f", "/a"), b"pw\n", ()), (("update", "f", "/b"), b"", behind),
            (("import", "f", "/c"), b"pw\n", ()), (("migrate",), b"pw\n", ()), (("rm", "-r", "/a"), b"pw\n", ()))):
        before = held(tree)
        status, _, errors = copied(tree, *words, given=given, options=options)
        same((status, errors), (0, ""), words)
        require(held(tree) == held(tree, "s") != before, f"{number} {words}: the copy is another one")
    for words in (("ls", "/"), ("passwd",), ("info",), ("check",), ("update", "f", "/b"), ("shell",)):
        before = os.stat(f"{tree.top}/c/{RECORD}").st_ino
        same(copied(tree, *words, given=b"pw\nnew\n" if words == ("passwd",) else b"pw\n")[0], 0, words)
        same(os.stat(f"{tree.top}/c/{RECORD}").st_ino, before, f"what changes nothing: {words}")
    tree.exported = {"CRYFS_STATE_COPY": "c"}
    same(tree.run("b", "s", "mkdir", "/x", given=b"pw\n")[0], 0, "from the environment")
    same(held(tree), held(tree, "s"), "from the environment")
    terminal = Terminal(tree, "b", "s", "shell")
    terminal.answer("Password: ", "pw")
    terminal.expect("cryfs> ")
    terminal.send("mkdir /y\n")
    terminal.expect("ok\r\n")
    terminal.send("\4")
    same(terminal.end()[0], 0, "at a terminal")
    same(held(tree), held(tree, "s"), "at a terminal")
    same(sorted(os.listdir(f"{tree.top}/c")), [RECORD], "what is in the folder")


def a_new_file_system_gets_a_copy(tree):
    modelled(tree)
    same(tree.run("--state-copy", "c", "b2", "s2", "create", given=b"pw\n")[0], 0, "create")
    same(held(tree), held(tree, "s2"), "the copy")
    same([stat.S_IMODE(os.stat(f"{tree.top}/{it}").st_mode) for it in ("c", f"c/{RECORD}")], [0o700, 0o600], "who may read it")
    status, out, errors = tree.run("--state-copy", "c", "b3", "s3", "create", given=b"pw\n")
    same((status, out, os.path.exists(f"{tree.top}/s3")), (125, "", False), errors)
    has(errors, "--state-copy c: it has the record of a file system")
    same(tree.run("--state-copy", "none/c", "b3", "s3", "create", given=b"pw\n")[0], 125, "nowhere")


def what_cannot_have_a_copy_is_refused_first(tree):
    filled(tree)
    os.symlink("c", f"{tree.top}/link")
    for folder, part in (("b", "it is BLOCKS or lies in it"), ("s", "it is STATE or lies in it"), ("b/deep/er", "BLOCKS"), ("s/c", "STATE"),
                         ("link", "it is a link"), ("link/", "it is a link"), ("none", "it isn't there"), ("pw", "it isn't there")):
        for words in (("mkdir", "/x"), ("update", "f", "/"), ("create",)):
            if words == ("create",) and folder in ("none", "pw"):
                continue
            status, out, errors = tree.run("--state-copy", folder, "b", "s", *words, given=b"pw\n")
            same((status, out, errors.count("\n")), (125, "", 1), f"{folder} {words}: {errors}")
            has(errors, "--state-copy ", part)
    for content, part in ((record(9), "STATE is older than this copy"), (record(1, system=b"x" * 16), "another file system"), (b"abc", "no record"),
                          (record(2)[:-9], "no record")):
        keep(tree, "c", content)
        status, _, errors = copied(tree, "mkdir", "/x")
        same((status, held(tree)), (125, content), errors)
        has(errors, f"--state-copy c: ", part)
    same(tree.run("b", "s", "ls", "/", given=b"pw\n")[1], "list 1\nd first\n", "what is there")
    for words, part in ((("--state-copy", "c", "b", "s", "trial"), "changes no STATE"), (("--state-copy=", "b", "s", "ls", "/"), "with a folder"),
                        (("--state-copy=c", "--state-copy=c", "b", "s", "ls", "/"), "stands once"), (("--state-copy",), "needs a word")):
        status, _, errors = tree.run(*words, given=b"pw\n")
        same(status, 1, words)
        has(errors, part)
    tree.exported = {"CRYFS_STATE_COPY": "none"}
    same(tree.run("b", "s", "trial")[0] == 125, False, "a trial, which has no STATE")


def what_only_looks_needs_no_copy(tree):
    filled(tree)
    old = held(tree)
    tree.run("c", "away", script="/bin/mv")
    for words in (("ls", "/"), ("check",), ("export", "f", "/"), ("update", "f", "/", "--dry-run", "--delete")):
        status, _, errors = copied(tree, *words)
        same((status, errors), (0, "cryfs: --state-copy c isn't there: nothing is copied\n"), words)
    for words in (("mkdir", "/x"), ("update", "f", "/"), ("shell",)):
        same(copied(tree, *words)[0], 125, words)
    same((os.path.exists(f"{tree.top}/c"), held(tree, "away")), (False, old), "the folders")


def a_marked_record_takes_no_copys_place(tree):
    filled(tree)
    good = held(tree)
    wants(tree, "answers", mkdir="violation missing")
    for words in (("mkdir", "/x"), ("update", "f", "/first"), ("ls", "/")):
        keep(tree, "s", good)
        copied(tree, *words)
        same(held(tree), good, words)
    wants(tree, "answers")


def a_run_that_failed_brings_what_state_has(tree):
    filled(tree)
    for fails in ("6 block directory fault", "9 output fault"):
        tree.write(f"{OUT}/fails", fails)
        number, _, text = fails.partition(" ")
        same(copied(tree, "mkdir", f"/{number}"), (int(number), "ok\n", f"cryfs: {text}\n"), fails)
        same(held(tree), held(tree, "s"), fails)
    os.remove(f"{tree.top}/{OUT}/fails")
    started = tree.start("--state-copy", "c", "--password-file", "pw", "b", "s", "shell")
    started.stdin.write(b"mkdir /z\n")
    started.stdin.flush()
    same(started.stdout.readline(), b"ok\n", "an answer")
    started.stdin.close()
    started.send_signal(signal.SIGINT)
    started.wait(LIMIT)
    wait_until(lambda: held(tree) == held(tree, "s"), "a session that a signal ended")


def a_copy_that_fails_is_told(tree):
    filled(tree)
    old = held(tree)
    os.mkdir(f"{tree.top}/c/{RECORD}.new")
    for words, given, out in ((("mkdir", "/x"), b"pw\n", "ok\n"), (("shell",), b"pw\nmkdir /y\n", "ok\n"),
                              (("update", "f", "/"), b"pw\n", "updated 0 1 0 1\n")):
        status, found, errors = copied(tree, *words, given=given)
        same((status, found, errors.count("\n"), held(tree)), (17, out, 2, old), errors)
        require(errors.endswith(FAULT), errors)
        has(errors, "cryfs: --state-copy c: Is a directory: the run itself was done, and STATE has it\n")
    tree.write(f"{OUT}/fails", "13 copy refused")
    status, _, errors = copied(tree, "import", "f", "/")
    same(status, 13, "the program's own status")
    has(errors, "the run itself was done, and STATE has it\n")
    os.remove(f"{tree.top}/{OUT}/fails")
    terminal = Terminal(tree, "--state-copy", "c", "b", "s", "mkdir", "/c")
    terminal.answer("Password: ", "pw")
    status, seen = terminal.end()
    same(status, 17, seen)
    has(seen, "ok\r\ncryfs: state not copied\r\ncryfs: --state-copy c: Is a directory", "cryfs: FOLDER of --state-copy")
    os.rmdir(f"{tree.top}/c/{RECORD}.new")
    same(copied(tree, "ls", "/")[0], 0, "the next run, which changes nothing")
    same(held(tree), held(tree, "s"), "it brings the copy")


def a_disk_that_is_full_or_read_only_keeps_the_old_copy(tree):
    filled(tree)
    old = held(tree)
    os.rename(f"{tree.top}/c", f"{tree.top}/before")
    os.mkdir(f"{tree.top}/c")
    if tree.run("-t", "tmpfs", "-o", "size=8k", "none", f"{tree.top}/c", script="/bin/mount")[0]:
        print("no small disk can be mounted here: left out")
        return
    try:
        keep(tree, "c", old)
        with open(f"{tree.top}/c/other", "wb") as file:
            file.write(b"x" * 4096)
        status, _, errors = copied(tree, "mkdir", "/a")
        same((status, held(tree), sorted(os.listdir(f"{tree.top}/c"))), (17, old, [RECORD, "other"]), errors)
        has(errors, "No space left on device", FAULT)
        same(tree.run("-o", "remount,ro", f"{tree.top}/c", script="/bin/mount")[0], 0, "a disk that is only read")
        status, _, errors = copied(tree, "mkdir", "/b")
        same((status, held(tree)), (17, old), errors)
        has(errors, "Read-only file system", FAULT)
    finally:
        tree.run(f"{tree.top}/c", script="/bin/umount")


def a_copy_that_is_killed_leaves_the_old_one(tree):
    filled(tree)
    if not shutil.which("strace"):
        print("no strace here: left out")
        return
    for call in ("fsync", "renameat"):
        old = held(tree)
        words = ["-qqfo", "/dev/null", "-e", f"inject={call}:error=EIO:signal=KILL:when=1", f"{tree.top}/cryfs", "--state-copy", "c", "b", "s"]
        status, out, errors = tree.run(*words, "mkdir", f"/{call}", given=b"pw\n", script=shutil.which("strace"))
        same((status, out, held(tree)), (-signal.SIGKILL, "ok\n", old), f"{call}: {errors}")
        require(held(tree, "s") != old, "the run itself was done")
        same(copied(tree, "ls", "/")[0], 0, "the next run")
        same((held(tree), os.listdir(f"{tree.top}/c")), (held(tree, "s"), [RECORD]), "the next run brings it")


def a_state_that_is_made_is_its_owners(tree):
    modelled(tree)
    same([stat.S_IMODE(os.stat(f"{tree.top}/{it}").st_mode) for it in "sb"], [0o700, 0o755], "who may read STATE and BLOCKS")
    os.mkdir(f"{tree.top}/s2", 0o755)
    same(tree.run("b2", "s2", "create", given=b"pw\n")[0], 0, "in a folder that is there")
    same(stat.S_IMODE(os.stat(f"{tree.top}/s2").st_mode), 0o755, "which stays as it is")


def no_memory_is_written_out(tree):
    tree.built("#!/bin/sh\nulimit -c\nulimit -Hc\n").write("pw", "pw\n")
    for words in ("b s info", "b s trial", "--password-file pw b s shell"):
        same(tree.run("-c", f"ulimit -c unlimited; ./cryfs {words}", given=b"pw\n", script="/bin/sh"), (0, "0\n0\n", ""), words)


def the_wrapper_stays_above_its_program(tree):
    tree.built("#!/bin/sh\necho $$\nread -r line\nexec sleep 30\n")
    for number in (signal.SIGTERM, signal.SIGHUP, signal.SIGKILL):
        started = tree.start("b", "s", "info")
        process = int(started.stdout.readline())
        started.stdin.write(b"pw\n")
        started.stdin.flush()
        started.send_signal(number)
        same(started.wait(LIMIT), -number, f"after signal {number}")
        wait_until(lambda: not os.path.exists(f"/proc/{process}") or " (sleep) Z" in tree.read(f"/proc/{process}/stat"), f"signal {number} left the program")
        started.communicate(timeout=LIMIT)


def a_lost_state_is_taken_from_its_copy(tree):
    tree.real().write("pw", "pw\n")
    tree.write("f/d/a", "1")
    tree.exported = {"CRYFS_STATE_COPY": "c"}
    same(tree.run("b", "s", "create", *CHEAP, given=b"pw\n")[0], 0, "create")
    for words in (("mkdir", "/x"), ("import", "f", "/x"), ("update", "f", "/"), ("rm", "-r", "/x"), ("ls", "/"), ("passwd",)):
        status, _, errors = tree.run("b", "s", *words, given=b"pw\npw\n")
        same((status, errors, held(tree)), (0, "", held(tree, "s")), words)
    older = held(tree)
    asked(tree, "mkdir", "/y")
    shutil.rmtree(f"{tree.top}/s")
    same(tree.run("b", "s", "ls", "/", given=b"pw\n")[0], 125, "without STATE")
    same(tree.run("-a", "c", "s", script="/bin/cp")[0], 0, "the copy is taken")
    same(asked(tree, "ls", "/"), "list 2\nd d\nd y\n", "all is there")
    newest = held(tree)
    keep(tree, "s", older)
    status, _, errors = tree.run("b", "s", "ls", "/", given=b"pw\n")
    same((status, held(tree, "s"), held(tree)), (125, older, newest), errors)
    has(errors, "STATE is older than this copy")
    tree.exported = {}
    status, out, _ = tree.run("b", "s", "ls", "/", given=b"pw\n")
    same((status, out[:23]), (5, "violation ahead-version"), "without the copy it is too late")
    tree.exported = {"CRYFS_STATE_COPY": "c"}
    same((tree.run("b", "s", "ls", "/", given=b"pw\n")[0], held(tree)), (125, newest), "a marked one that is older")


REAL = [a_lost_state_is_taken_from_its_copy]
CASES = [each_run_that_changes_something_brings_a_copy, a_new_file_system_gets_a_copy, what_cannot_have_a_copy_is_refused_first, what_only_looks_needs_no_copy,
         a_marked_record_takes_no_copys_place, a_run_that_failed_brings_what_state_has, a_copy_that_fails_is_told,
         a_disk_that_is_full_or_read_only_keeps_the_old_copy, a_copy_that_is_killed_leaves_the_old_one, a_state_that_is_made_is_its_owners,
         no_memory_is_written_out, the_wrapper_stays_above_its_program]
