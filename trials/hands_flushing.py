"""Cases of the helper that flushes the disk of BLOCKS, over a program that asks it: to whom it is lent, what it answers, and when it ends."""
import glob
import os
import signal
import subprocess

import flushing
from hands_tree import Skipped, require, same, wait_until

# A program that prints what it was lent, and the answer to each line of its input: the bytes of a request by their digits.
ASKING = r"""#!/usr/bin/env python3
import os, sys

def numbers(file):
    try:
        return os.fstat(file)[1:3]
    except OSError:
        return None

lent = [numbers(it) is not None for it in (5, 6, 7)]
print("lent" if all(lent) and numbers(5) == os.stat(sys.argv[1])[1:3] else "part" if any(lent) else "alone", flush=True)
sys.stdin.readline()
for line in sys.stdin if sys.argv[3:4] == ["shell"] else ():
    try:
        os.write(6, bytes.fromhex(line))
        print(os.read(7, 100).hex() or "ended", flush=True)
    except OSError as why:
        print(why.strerror, flush=True)
"""
FLUSH, DONE, NOT = "666c757368000000", "646f6e6500000000", "6e6f740000000000"
MANY = (("import", "f", "/"), ("put", "/a"), ("rm", "/a"), ("truncate", "/a", "1"), ("shell",), ("generate", "1"), ("migrate",))
FEW = (("ls", "/"), ("mkdir", "/a"), ("write", "/a", "0", "61"), ("info",), ("check",), ("export", "f", "/"), ("get", "/a"), ("passwd",), ("create",))


def asking(tree):
    """The tree with that program, and a folder of blocks whose disk can be flushed at once."""
    tree.built(ASKING)
    os.mkdir(f"{tree.top}/b")
    folder = os.open(f"{tree.top}/b", os.O_RDONLY)
    try:
        if flushing.kind_of(folder) not in flushing.KINDS or not flushing.tells_errors(os.uname().release):
            raise Skipped("this disk is flushed file by file")
    finally:
        os.close(folder)
    return tree


def told(tree, *words, given=b"pw\n"):
    """The lines that the program printed."""
    status, out, errors = tree.run("b", "s", *words, given=given)
    same((status, errors), (0, ""), words)
    return out.splitlines()


def users_of(folder):
    """The processes that have a folder open."""
    found = []
    for link in glob.glob("/proc/[0-9]*/fd/*"):
        try:
            if os.readlink(link) == folder:
                found.append(link)
        except OSError:
            continue
    return found


def a_helper_is_lent_where_many_files_may_change(tree):
    asking(tree)
    for words in MANY:
        same(told(tree, *words), ["lent"], words)
    for words in FEW:
        same(told(tree, *words, given=b"pw\npw\n"), ["alone"], words)
    tree.exported = {"CRYFS_FLUSH": "each"}
    same(told(tree, "shell"), ["alone"], "CRYFS_FLUSH=each")
    tree.exported = {}
    os.rmdir(f"{tree.top}/b")
    same(told(tree, "shell"), ["alone"], "without BLOCKS")
    tree.write("b", "")
    same(told(tree, "shell"), ["alone"], "BLOCKS is a file")


def the_helper_answers_each_request(tree):
    asking(tree)
    requests = [f"{FLUSH}{number:016x}" for number in (1, 2, 0, 2**64 - 1)] + ["61" * 16, f"{DONE}{1:016x}"]
    answers = [DONE + it[16:] for it in requests[:4]] + [NOT + it[16:] for it in requests[4:]]
    given = "\n".join(["pw", *requests, ""]).encode()
    same(told(tree, "shell", given=given), ["lent", *answers], "from a pipe")
    tree.write("pw", "pw\n")
    status, out, errors = tree.run("--password-file", "pw", "b", "s", "shell", given=given.removeprefix(b"pw\n"))
    same((status, out.splitlines(), errors), (0, ["lent", *answers], ""), "with a password file")


def the_helper_ends_with_the_program(tree):
    asking(tree)
    same(told(tree, "shell"), ["lent"], "a run")
    wait_until(lambda: not users_of(f"{tree.top}/b"), "the helper is left over")
    started = tree.start("b", "s", "shell")
    same(started.stdout.readline(), b"lent\n", "a run")
    require(users_of(f"{tree.top}/b"), "nobody has the folder open")
    os.kill(started.pid, signal.SIGKILL)
    started.wait()
    started.stdin.close()
    wait_until(lambda: not users_of(f"{tree.top}/b"), "the helper is left over after a kill")


def a_helper_that_was_killed_is_seen(tree):
    asking(tree)
    started = tree.start("b", "s", "shell")
    same(started.stdout.readline(), b"lent\n", "a run")
    program = {it for it in os.listdir("/proc") if it.isdigit() and f"{tree.top}/crates" in tree_words(it)}
    helpers = {it.split("/")[2] for it in users_of(f"{tree.top}/b")} - program
    same(len(helpers), 1, f"the helpers, beside {program}")
    os.kill(int(helpers.pop()), signal.SIGKILL)
    wait_until(lambda: len({it.split("/")[2] for it in users_of(f"{tree.top}/b")}) == 1, "the helper isn't gone")
    out, errors = started.communicate(f"pw\n{FLUSH}{1:016x}\n".encode(), timeout=60)
    require(out in (b"ended\n", b"Broken pipe\n"), f"{out} {errors}")


def what_the_disk_could_not_write_is_told_once(tree):
    if os.geteuid():
        raise Skipped("who isn't root mounts no disk")
    tree.write("small/f", "")
    tree.write("disk/f", "")
    small, disk = f"{tree.top}/small", f"{tree.top}/disk"
    mounted(small, "-t", "tmpfs", "-o", "size=16m", "tmpfs")
    try:
        with open(f"{small}/image", "wb") as file:
            file.truncate(64 << 20)
        subprocess.run(["mkfs.ext4", "-q", f"{small}/image"], check=True)
        mounted(disk, "-o", "loop", f"{small}/image")
        try:
            same([it[:4] for it in answers_on(disk)], [b"done", b"not\0", b"done"], "before files are lost, behind that, and again")
        finally:
            subprocess.run(["umount", disk], check=True)
    finally:
        subprocess.run(["umount", small], check=True)


def mounted(folder, *words):
    """Mounts, or skips the case."""
    try:
        subprocess.run(["mount", *words, folder], check=True, stderr=subprocess.DEVNULL)
    except (OSError, subprocess.SubprocessError) as why:
        raise Skipped(f"nothing can be mounted: {why}") from why


def answers_on(disk):
    """Those of a helper of a folder on a disk that has room for a part of the files alone, though it seems to have it for all."""
    os.mkdir(f"{disk}/b")
    lent = flushing.lend(f"{disk}/b")
    require(lent, "no helper is lent")
    try:
        yield answer_of(lent, 1)
        for number in range(1500):
            with open(f"{disk}/b/{number}", "wb") as file:
                file.write(os.urandom(16384))
        yield answer_of(lent, 2)
        yield answer_of(lent, 3)
    finally:
        flushing.let_go(lent)
        wait_until(lambda: not users_of(f"{disk}/b"), "the helper is left over")


def answer_of(lent, number):
    os.write(lent[flushing.REQUESTS], flushing.FLUSH + number.to_bytes(8, "little"))
    return os.read(lent[flushing.ANSWERS], 100)


def tree_words(process):
    """The words of a process."""
    try:
        with open(f"/proc/{process}/cmdline", encoding="utf-8", errors="replace") as file:
            return file.read()
    except OSError:
        return ""


CASES = [a_helper_is_lent_where_many_files_may_change, the_helper_answers_each_request, the_helper_ends_with_the_program,
         a_helper_that_was_killed_is_seen, what_the_disk_could_not_write_is_told_once]
