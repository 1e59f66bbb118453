"""Cases of `./cryfs mount`: over a false program (`false_mount.py`), and over the one that was built in this checkout."""
import contextlib
import os
import shutil
import signal
import subprocess
import time

from hands_real import line, made
from hands_tree import LIMIT, TOP, Skipped, Terminal, has, require, same, wait_until

BUILT_MOUNT = f"{TOP}/crates/cryfs_mount/out/cryfs_mount"
PLACE = "crates/cryfs_mount/out"
ENDS = {True: "fusermount3 -u", False: "umount"}[shutil.which("fusermount3") is not None]


def lacks():
    """Why nothing can be mounted here; nothing where it can."""
    if not os.path.exists("/dev/fuse"):
        return "no /dev/fuse"
    if os.geteuid() and not shutil.which("fusermount3"):
        return "no fusermount3"
    return "" if os.access("/dev/fuse", os.R_OK | os.W_OK) else "/dev/fuse can't be opened"


def is_mounted(folder):
    with open("/proc/self/mountinfo", encoding="utf-8", errors="replace") as file:
        return any(row.split()[4] == folder for row in file)


def unmount(folder, *options):
    """Unmounts, and what is said where that fails."""
    return subprocess.run([*ENDS.split(), *options, folder], stderr=subprocess.PIPE, check=False).stderr.decode()


def looked(*words):
    """What a program says that looks at the mounted folder. It runs beside, since it may have to wait."""
    ended = subprocess.run(words, stdout=subprocess.PIPE, stderr=subprocess.STDOUT, timeout=LIMIT, check=False)
    return ended.stdout.decode()


@contextlib.contextmanager
def folder_of(tree, password="pw"):
    """An empty folder, with the false program and a password in a file; nothing stays mounted there."""
    tree.built().write("pw", f"{password}\n")
    with emptied(tree) as folder:
        shutil.copy2(f"{TOP}/trials/false_mount.py", f"{tree.top}/{PLACE}/cryfs_mount")
        yield folder


@contextlib.contextmanager
def emptied(tree):
    folder = f"{tree.top}/m"
    os.makedirs(f"{tree.top}/{PLACE}", exist_ok=True)
    os.makedirs(f"{tree.top}/b", exist_ok=True)
    os.mkdir(folder)
    try:
        yield folder
    finally:
        while is_mounted(folder):
            unmount(folder, "-uz" if "fuser" in ENDS else "-l")


def got(tree):
    """What the false program was run with, and what it did."""
    return tree.read(f"{PLACE}/got")


def mounts(tree, *words, **how):
    """A run of `mount m` at a terminal."""
    return Terminal(tree, "--password-file", "pw", "b", "s", "mount", "m", *words, **how)


def standing(tree, folder, *words):
    """The same, once the mount stands."""
    terminal = mounts(tree, *words)
    terminal.expect(f"cryfs: mounted at {folder}: ")
    return terminal


def in_background(tree):
    return tree.run("--password-file", "pw", "b", "s", "mount", "m", "--background")


def ends(terminal, folder, status):
    """What is seen until a run ends with this status, and nothing is mounted then."""
    found, seen = terminal.end()
    same(found, status, seen)
    require(not is_mounted(folder), f"{folder} is still mounted")
    return seen


def folders_that_hide_each_other_are_refused(tree):
    tree.built(PROGRAM_THERE).write("pw", "pw\n")
    tree.write(f"{PLACE}/cryfs_mount", PROGRAM_THERE, 0o755)
    for path in ("b/in", "s/in", "above/b", "above/s", "full"):
        os.makedirs(f"{tree.top}/{path}")
    shutil.copy2(f"{tree.top}/s/cryfs.localstate", f"{tree.top}/above/s")
    tree.write("full/file", "")
    os.symlink("b", f"{tree.top}/link")
    for blocks, state, folder, wanted in (
            ("b", "s", "b", "FOLDER and BLOCKS are one folder"), ("b", "s", "link", "FOLDER and BLOCKS are one folder"),
            ("b", "s", "s", "FOLDER and STATE are one folder"), ("b", "s", "b/in", "FOLDER lies in BLOCKS: "), ("b", "s", "s/in", "FOLDER lies in STATE: "),
            ("above/b", "s", "above", "BLOCKS lies in FOLDER: "), ("b", "above/s", "above", "STATE lies in FOLDER: "),
            ("b", "s", "full", "isn't empty"), ("b", "s", "none", "make it first, mkdir "), ("b", "s", "pw", "is no folder")):
        status, out, errors = tree.run(blocks, state, "mount", folder, given=b"pw\n")
        same((status, out, errors.count("\n")), (125, "", 1), errors)
        has(errors, "cryfs: ", wanted)
    os.mkdir(f"{tree.top}/copy")
    status, _, errors = tree.run("--state-copy", "copy", "b", "s", "mount", "copy", given=b"pw\n")
    same(status, 125, errors)
    has(errors, "FOLDER and the folder of --state-copy are one folder")


def words_of_a_mount_are_looked_at(tree):
    tree.built()
    for words, wanted in (([], "the words are mount FOLDER"), ([""], "the words are mount FOLDER"), (["m", "n"], "takes no word 'n'"),
                          (["--background", "m"], "--background stands behind FOLDER"), (["m", "--background", "--background"], "stands twice")):
        status, out, errors = tree.run("b", "s", "mount", *words, given=b"pw\n")
        same((status, out, errors.count("\n")), (1, "", 1), errors)
        has(errors, wanted)


def a_mount_that_is_not_built_is_told(tree):
    tree.built()
    os.mkdir(f"{tree.top}/m")
    status, out, errors = tree.run("b", "s", "mount", "m", given=b"pw\n")
    same((status, out), (125, ""), errors)
    has(errors, "isn't built yet", "/build")


def it_is_mounted_until_an_interrupt(tree):
    with folder_of(tree) as folder:
        terminal = standing(tree, folder)
        terminal.expect(f"Ctrl-C or {ENDS} {folder} ends it\r\n")
        same(looked("cat", f"{folder}/f"), "one\n", "what is read")
        has(looked("ls", folder), "alarm\nend\nf\n")
        same(got(tree).splitlines()[:3], [f"words {tree.top}/b {tree.top}/s", "in /", "password 'pw\\n'"], "how it is run")
        terminal.send("\3")
        has(ends(terminal, folder, 0), "cryfs: unmounted, and closing; another interrupt stops it at once\r\n")
        has(got(tree), "closed\n")


def other_signals_end_it_too(tree):
    with folder_of(tree) as folder:
        for number in (signal.SIGTERM, signal.SIGHUP):
            terminal = standing(tree, folder)
            os.kill(terminal.pid, number)
            ends(terminal, folder, 0)
        same(got(tree).count("closed\n"), 2, "closed")


def it_ends_where_it_is_unmounted_outside(tree):
    with folder_of(tree) as folder:
        terminal = standing(tree, folder)
        same(unmount(folder), "", "unmounting")
        same(ends(terminal, folder, 0).count("cryfs: "), 0, "lines that nobody needs")
        has(got(tree), "closed\n")


def in_the_background_it_stands_when_the_call_is_done(tree):
    with folder_of(tree, "slow") as folder:
        # (its streams aren't held: this waits for their end)
        same(in_background(tree), (0, "", ""), "in a pipe")
        require(is_mounted(folder), "it doesn't stand")
        same(looked("cat", f"{folder}/f"), "one\n", "what is read")
        has(tree.run("b", "s", "mount", "m", given=b"slow\n")[2], "is mounted already")
        same(unmount(folder), "", "unmounting")
        wait_until(lambda: "closed" in got(tree), "it never closed")
        terminal = mounts(tree, "--background")
        status, seen = terminal.end()
        same(status, 0, seen)
        has(seen, f"cryfs: mounted at {folder}: {ENDS} {folder} ends it\r\n")
        same(looked("cat", f"{folder}/f"), "one\n", "what is read once its terminal has gone")


def one_that_does_not_open_leaves_nothing(tree):
    with folder_of(tree, "wrong") as folder:
        for words in ((), ("--background",)):
            terminal = mounts(tree, *words)
            seen = ends(terminal, folder, 3)
            has(seen, "cryfs: configuration does not open\r\n", "the password is another one: give the right password")
            same(tree.run("b", "s", "mount", "m", *words, given=b"wrong\n"), (3, "", "cryfs: configuration does not open\n"), "in a pipe")
            require(not is_mounted(folder), "it is still mounted")


def an_interrupt_while_it_opens_leaves_nothing(tree):
    with folder_of(tree, "slow") as folder:
        for words in ((), ("--background",)):
            terminal = mounts(tree, *words)
            wait_until(lambda: is_mounted(folder), "it was never mounted")
            terminal.send("\3")
            ends(terminal, folder, -signal.SIGINT)
            wait_until(lambda: not is_mounted(folder), "it stays mounted")


def in_use_it_goes_on_until_nobody_uses_it(tree):
    with folder_of(tree) as folder:
        terminal = standing(tree, folder)
        with subprocess.Popen(["sleep", str(LIMIT)], cwd=folder) as user:
            terminal.send("\3")
            has(terminal.expect("takes it away at once\r\n"), f"{folder} can't be taken away yet: ", f"it is used by sleep ({user.pid})",
                "ends as soon as nothing is open there")
            same(looked("cat", f"{folder}/f"), "one\n", "it goes on")
            user.kill()
        ends(terminal, folder, 0)
        has(got(tree), "closed\n")


def a_second_interrupt_takes_it_away_at_once(tree):
    with folder_of(tree) as folder:
        terminal = standing(tree, folder)
        with open(f"{folder}/open", "rb", buffering=0) as held:
            terminal.send("\3")
            terminal.expect("takes it away at once\r\n")
            terminal.send("\3")
            has(terminal.expect("stops it at once\r\n"), f"{folder} is taken away, and works on for python3 (", "until all there is closed")
            require(not is_mounted(folder), "it is still there")
            same(os.read(held.fileno(), 9), b"one\n", "what is open works on")
        ends(terminal, folder, 0)
        has(got(tree), "closed\n")


def a_third_interrupt_stops_it(tree):
    with folder_of(tree) as folder:
        terminal = standing(tree, folder)
        held = os.open(f"{folder}/open", os.O_RDONLY)
        terminal.send("\3")
        terminal.expect("takes it away at once\r\n")
        terminal.send("\3")
        terminal.expect("stops it at once\r\n")
        terminal.send("\3")
        ends(terminal, folder, -signal.SIGINT)
        with contextlib.suppress(OSError):
            os.close(held)
        require("closed" not in got(tree), "it was closed")


def a_violation_is_told_at_once(tree):
    with folder_of(tree) as folder:
        terminal = standing(tree, folder)
        has(looked("cat", f"{folder}/alarm"), "Bad message")
        terminal.expect("cryfs: violation old-version 3 2\r\n")
        has(terminal.expect("check --all tells which files it is about\r\n"), "each request", "is refused", f"End it: {ENDS} {folder}", '"The alarm" in ')
        has(looked("ls", folder), "Bad message")
        terminal.send("\3")
        has(ends(terminal, folder, 5), "cryfs: integrity violation\r\n", "don't trust BLOCKS")


def a_program_that_is_killed_leaves_no_mount(tree):
    with folder_of(tree) as folder:
        terminal = standing(tree, folder)
        has(looked("cat", f"{folder}/end"), "not connected")
        has(ends(terminal, folder, -signal.SIGKILL), "`kill -9` stopped it")
        same(in_background(tree), (0, "", ""), "it can be mounted again")
        looked("cat", f"{folder}/end")
        wait_until(lambda: not is_mounted(folder), "in the background it stays mounted")


def it_is_served_and_ticks_where_the_wrapper_is_killed(tree):
    with folder_of(tree) as folder:
        terminal = standing(tree, folder)
        os.kill(terminal.pid, signal.SIGKILL)
        same(terminal.end()[0], -signal.SIGKILL, "the wrapper")
        same(looked("cat", f"{folder}/f"), "one\n", "what is read")
        ticks = got(tree).count("tick")
        wait_until(lambda: got(tree).count("tick") > ticks, "it doesn't tick")
        has(tree.run("b", "s", "mount", "m", given=b"pw\n")[2], f"this clears it: {ENDS} {folder}")
        same(unmount(folder), "", "unmounting")
        wait_until(lambda: "closed" in got(tree), "it never closed")


def no_other_process_keeps_the_mount(tree):
    """The program alone has the kernel's descriptor, and it has no other files of the wrapper's."""
    with folder_of(tree) as folder:
        terminal = standing(tree, folder)
        having = []
        for number in filter(str.isdigit, os.listdir("/proc")):
            with contextlib.suppress(OSError):
                links = {it: os.readlink(f"/proc/{number}/fd/{it}") for it in os.listdir(f"/proc/{number}/fd")}
                if "/dev/fuse" in links.values() and tree.top in tree_of(number):
                    having.append(links)
        same(len(having), 1, having)
        same({it: having[0][it] for it in "01"}, {"0": "/dev/fuse", "1": "/dev/fuse"}, "its streams")
        terminal.send("\3")
        ends(terminal, folder, 0)


def tree_of(number):
    with open(f"/proc/{number}/cmdline", encoding="utf-8", errors="replace") as file:
        return file.read()


def needs_root():
    """Such a case runs the wrapper as somebody else."""
    if os.geteuid():
        raise Skipped("this isn't root")


def a_user_mounts_by_the_helper(tree):
    """As root, the same as somebody else, to whom a device of another mount namespace is given."""
    needs_root()
    if not shutil.which("fusermount3"):
        raise Skipped("there is no fusermount3")
    with folder_of(tree):
        os.chmod(os.path.dirname(tree.top), 0o755)
        for path in ("m", "b", "s", "pw", f"{PLACE}", "crates/cryfs/out"):
            os.chown(f"{tree.top}/{path}", 65534, 65534)
        os.chown(f"{tree.top}/s/cryfs.localstate", 65534, 65534)
        script = (f"cd {tree.top}; mknod device c 10 229; chmod 666 device; mount --bind device /dev/fuse || exit 99; exec setpriv --reuid=65534 --regid=65534 "
                  f"--clear-groups sh -c './cryfs --password-file pw b s mount m --background; echo $?; cat m/f; fusermount3 -u m; echo $?'")
        status, out, errors = tree.run("-m", "sh", "-c", script, script="/usr/bin/unshare")
        if status == 99:
            raise Skipped(f"no other device can be mounted: {errors}")
        same((status, out, errors), (0, "0\none\n0\n", ""), "as a user")
        wait_until(lambda: "closed" in got(tree), "it never closed")


def what_mounts_is_named_where_it_is_missing(tree):
    needs_root()
    with folder_of(tree) as folder:
        os.chmod(os.path.dirname(tree.top), 0o755)
        os.chown(folder, 65534, 65534)
        os.chown(f"{tree.top}/s/cryfs.localstate", 65534, 65534)
        script = "PATH=bin; exec /usr/bin/setpriv --reuid=65534 --regid=65534 --clear-groups /usr/bin/python3 ./cryfs --password-file pw b s mount m"
        status, out, errors = tree.run("-c", script, script="/bin/sh")
        same((status, out), (125, ""), errors)
        has(errors, "there is no fusermount3", "apt install fuse3")


def the_folder_has_to_be_ones_own(tree):
    needs_root()
    with folder_of(tree) as folder:
        os.chmod(os.path.dirname(tree.top), 0o755)
        script = "exec setpriv --reuid=65534 --regid=65534 --clear-groups ./cryfs --password-file pw b s mount m"
        status, out, errors = tree.run("-c", script, script="/bin/sh")
        same((status, out), (125, ""), errors)
        has(errors, f"{folder} isn't yours")


def what_is_written_is_there_afterwards(tree):
    made(tree)
    with emptied(tree) as folder:
        shutil.copy2(BUILT_MOUNT, f"{tree.top}/{PLACE}/cryfs_mount")
        line(tree, "mkdir", "/before")
        same(in_background(tree), (0, "", ""), "mounting")
        same(looked("ls", folder), "before\n", "what was there")
        same(looked("sh", "-c", f"mkdir {folder}/d && printf %s abc >{folder}/d/f && cat {folder}/d/f"), "abc", "what is written")
        same(tree.run("b", "s", "ls", "/", given=b"pw\n")[0], 7, "another run meanwhile")
        same(unmount(folder), "", "unmounting")
        wait_until(lambda: tree.run("b", "s", "ls", "/", given=b"pw\n")[0] == 0, "it is never free")
        same(line(tree, "ls", "/"), "list 2\nd before\nd d\n", "by lines")
        same(line(tree, "read", "/d/f", "0", "9"), "data 616263\n", "by lines")


def a_wrong_password_mounts_nothing(tree):
    made(tree).write("pw", "pv\n")
    with emptied(tree) as folder:
        shutil.copy2(BUILT_MOUNT, f"{tree.top}/{PLACE}/cryfs_mount")
        same(in_background(tree), (3, "", "cryfs: configuration does not open\n"), "a wrong password")
        require(not is_mounted(folder), "it is mounted")


PROGRAM_THERE = "#!/bin/sh\nexit 99\n"
CASES = [folders_that_hide_each_other_are_refused, words_of_a_mount_are_looked_at, a_mount_that_is_not_built_is_told]
MOUNTED = [it_is_mounted_until_an_interrupt, other_signals_end_it_too, it_ends_where_it_is_unmounted_outside,
           in_the_background_it_stands_when_the_call_is_done, one_that_does_not_open_leaves_nothing, an_interrupt_while_it_opens_leaves_nothing,
           in_use_it_goes_on_until_nobody_uses_it, a_second_interrupt_takes_it_away_at_once, a_third_interrupt_stops_it, a_violation_is_told_at_once,
           a_program_that_is_killed_leaves_no_mount, it_is_served_and_ticks_where_the_wrapper_is_killed, no_other_process_keeps_the_mount,
           a_user_mounts_by_the_helper, what_mounts_is_named_where_it_is_missing, the_folder_has_to_be_ones_own]
REAL = [what_is_written_is_there_afterwards, a_wrong_password_mounts_nothing]
