"""Cases of `./cryfs update` over the program that was built in this checkout, on real folders."""
import glob
import hashlib
import os
import random
import shutil
import signal
import socket

from hands_copies import copies, counted, filled, is_equal
from hands_real import asks, line, made
from hands_tree import has, require, same, wait_until


def updated(tree, *words, **how):
    return tree.run("b", "s", "update", *words, given=b"pw\n", **how)


def files_of(top):
    return sorted(f"{at}/{it}" for at, _, names in os.walk(top) for it in names if not os.path.islink(f"{at}/{it}"))


def is_as(tree, folder, name):
    """Whether the tree has what the folder has: it is exported into a new folder of this name."""
    os.mkdir(f"{tree.top}/{name}")
    same(copies(tree, "export", name, "/")[0], 0, "export")
    is_equal(tree, folder, name)


def what_is_new_or_changed_is_written(tree):
    made(tree)
    filled(tree)
    same(updated(tree, "f", "/"), (0, "updated " + counted(f"{tree.top}/f"), ""), "all of it")
    same(updated(tree, "f", "/", "--delete"), (0, "updated 0 0 0 0\nremoved 0 0 0\n", ""), "nothing")
    chance, paths = random.Random(7), files_of(f"{tree.top}/f")
    changed, gone = paths[100:130], paths[200:220]
    for path in changed:
        with open(path, "ab") as file:
            file.write(chance.randbytes(chance.choice((1, 40, 20000))))
    for path in gone:
        os.remove(path)
    size = sum(map(os.path.getsize, changed))
    same(updated(tree, "f", "/"), (0, f"updated 0 30 0 {size}\n", ""), "what changed")
    same(updated(tree, "f", "/", "--delete"), (0, "updated 0 0 0 0\nremoved 0 20 0\n", ""), "what is gone")
    is_as(tree, "f", "g")
    same(tree.run("b", "s", "check", "--quiet", given=b"pw\n")[0], 0, "a check")


def an_import_is_gone_on_with(tree):
    made(tree)
    tree.write("f/d/a", "one")
    tree.write("f/b", "two")
    same(copies(tree, "import", "f", "/")[0], 0, "import")
    same(updated(tree, "f", "/"), (0, "updated 0 0 0 0\n", ""), "the bytes are the same")
    found = line(tree, "stat", "/d/a").split()
    here = os.stat(f"{tree.top}/f/d/a").st_mtime_ns
    same(found[7], "%d.%09d" % divmod(here, 10**9), "its time of modification")
    tree.write("f/d/a", "six")
    os.utime(f"{tree.top}/f/d/a", ns=(here, here))
    same(updated(tree, "f", "/"), (0, "updated 0 0 0 0\n", ""), "another file of that length and time isn't seen")
    os.utime(f"{tree.top}/f/d/a", ns=(here, here + 1))
    same(updated(tree, "f", "/"), (0, "updated 0 1 0 3\n", ""), "it is with another time")
    is_as(tree, "f", "g")


def a_row_of_another_kind_goes_where_that_is_asked(tree):
    made(tree)
    tree.write("f/a/b/c", "1")
    tree.write("f/b", "2")
    os.symlink("b", f"{tree.top}/f/c")
    same(updated(tree, "f", "/")[0], 0, "update")
    shutil.rmtree(f"{tree.top}/f/a")
    tree.write("f/a", "3")
    os.remove(f"{tree.top}/f/c")
    os.symlink("a", f"{tree.top}/f/c")
    same(updated(tree, "f", "/"), (13, "error exists /a\n", "cryfs: copy refused\n"), "without")
    same(updated(tree, "f", "/", "--delete"), (0, "updated 0 1 1 1\nremoved 2 1 0\n", ""), "with it")
    is_as(tree, "f", "g")


def what_cannot_be_updated_is_told(tree):
    made(tree)
    fault = "cryfs: host folder fault\n"
    same(updated(tree, "none", "/"), (12, "", "cryfs: none: No such file or directory\n" + fault), "no folder")
    tree.write("f/a", "1")
    same(updated(tree, "f", "/none"), (13, "error no-entry /none\n", "cryfs: copy refused\n"), "no directory")
    same(updated(tree, "f/a", "/"), (12, "", "cryfs: f/a: Not a directory\n" + fault), "no folder, but a file")
    for folder in ("b", "s"):
        same(updated(tree, folder, "/"), (12, "", f"cryfs: {folder}: it is in BLOCKS or STATE\n" + fault), folder)
    same(updated(tree, ".", "/")[:2], (12, ""), "what holds both")
    with socket.socket(socket.AF_UNIX) as it:
        it.bind(f"{tree.top}/f/socket")
    same(updated(tree, "f", "/"), (12, "", "cryfs: f/socket is no file, folder or link: --leave-out goes on without it\n" + fault), "a socket")
    left = "cryfs: f/socket is no file, folder or link: left out\n"
    same(updated(tree, "f", "/", "--leave-out"), (0, "updated 0 1 0 1\n", left), "which is left out")
    os.remove(f"{tree.top}/f/socket")
    tree.write("f/.sergunad-update", "")
    same(updated(tree, "f", "/")[:2], (12, ""), "the update's own name")
    os.remove(f"{tree.top}/f/.sergunad-update")
    open(os.fsencode(f"{tree.top}/f/") + b"\xff", "w").close()
    same(updated(tree, "f", "/")[:2], (12, ""), "a name that is no text")
    same(tree.run("b", "s", "update", "f", "/", given=b"pv\n"), (3, "", "cryfs: configuration does not open\n"), "a wrong password")
    same(line(tree, "ls", "/"), "list 1\nf a\n", "what is there")


def a_violation_ends_the_update(tree):
    made(tree)
    tree.write("f/d/a", "1")
    same(updated(tree, "f", "/")[0], 0, "update")
    rows = tree.run("b", "s", "check", given=b"pw\n")[1].splitlines()
    block = next(it.split()[1] for it in rows if it.endswith(" /d/a"))
    for path in glob.glob(f"{tree.top}/b/{block[:3]}/{block[3:]}"):
        os.remove(path)
    same(updated(tree, "f", "/"), (5, "violation missing /d/a\n", "cryfs: integrity violation\n"), "a block that is gone")


def an_update_that_is_stopped_leaves_whole_files(tree):
    made(tree)
    old, new = (random.Random(it).randbytes(30 << 20) for it in (1, 2))
    os.mkdir(f"{tree.top}/f")
    for number, content in enumerate((old, new)):
        with open(f"{tree.top}/f/big", "wb") as file:
            file.write(content)
        if not number:
            same(updated(tree, "f", "/")[0], 0, "the old file")
    started = tree.start("b", "s", "update", "f", "/")
    started.stdin.write(b"pw\n")
    started.stdin.close()
    wait_until(lambda: os.path.getsize(f"{tree.top}/s/cryfs.localstate") > (1 << 20), "a record with what waits")
    os.killpg(started.pid, signal.SIGKILL)
    started.wait()
    wait_until(lambda: line_status(tree) == 0, "it opens again")
    got = tree.run("-c", "./cryfs --password-file pw b s get /big | sha256sum", script="/bin/sh")[1].split()[0]
    require(got in [hashlib.sha256(it).hexdigest() for it in (old, new)], "neither the old file nor the new one")
    same(updated(tree, "f", "/")[0], 0, "again")
    same(line(tree, "ls", "/"), "list 1\nf big\n", "nothing is left over")
    is_as(tree, "f", "g")


def line_status(tree):
    return tree.run("b", "s", "ls", "/", given=b"pw\n")[0]


def a_terminal_sees_how_far_an_update_is(tree):
    made(tree)
    os.mkdir(f"{tree.top}/f")
    with open(f"{tree.top}/f/big", "wb") as file:
        file.truncate(200 << 20)
    terminal = asks(tree, "update", "f", "/")
    terminal.expect("\rcryfs: 0 files, ")
    status, seen = terminal.end()
    same(status, 0, seen)
    has(seen, "\x1b[Kupdated 1 file, 210 MB in ")
    terminal = asks(tree, "update", "f", "/none")
    status, seen = terminal.end()
    same(status, 13, seen)
    has(seen, "error no-entry /none\r\n", "cryfs: copy refused\r\ncryfs: `import`, `put` or `update` found no directory", "`mkdir` /none first")


CASES = [what_is_new_or_changed_is_written, an_import_is_gone_on_with, a_row_of_another_kind_goes_where_that_is_asked, what_cannot_be_updated_is_told,
         a_violation_ends_the_update, an_update_that_is_stopped_leaves_whole_files, a_terminal_sees_how_far_an_update_is]
