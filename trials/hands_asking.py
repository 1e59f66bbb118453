"""Cases of `./cryfs update` and `./cryfs rm -r` over the program of `hands_model.py`: which lines they ask, and what happens in their midst."""
import json
import os
import random
import shutil
import signal
import time

import kill_updates
from hands_tree import LIMIT, has, require, same, wait_until
from rows import make_rows

OUT = "crates/cryfs/out"


def modelled(tree):
    """A file system of the model in `b` and `s`, whose password is `pw`."""
    tree.built()
    shutil.rmtree(f"{tree.top}/s")
    shutil.copy2(f"{os.path.dirname(os.path.abspath(__file__))}/hands_model.py", f"{tree.top}/{OUT}/cryfs")
    os.chmod(f"{tree.top}/{OUT}/cryfs", 0o755)
    same(tree.run("b", "s", "create", given=b"pw\n")[0], 0, "create")
    return tree


def wants(tree, name, **lines):
    """Sets what the model does, or answers, at lines that begin so."""
    tree.write(f"{OUT}/{name}", json.dumps({it.replace("__", " /").replace("_", " "): what for it, what in lines.items()}))


def asked(tree):
    """The lines that the model was asked since the last look."""
    lines = tree.read(f"{OUT}/lines").splitlines()
    os.remove(f"{tree.top}/{OUT}/lines")
    return lines


def updated(tree, *words):
    return tree.run("b", "s", "update", *words, given=b"pw\n")


def line(tree, *words):
    return tree.run("b", "s", *words, given=b"pw\n")[1]


def a_long_line_comes_whole_through_stops_and_signals(tree):
    modelled(tree)
    os.mkdir(f"{tree.top}/f")
    # The line that has the bytes is longer than a pipe is, so its end waits until the program reads.
    with open(f"{tree.top}/f/big", "wb") as file:
        file.write(b"x" * 400000)
    wants(tree, "pauses", mkfile=f"touch {tree.top}/begun; sleep 2")
    for numbers, status in (((signal.SIGSTOP, signal.SIGCONT), 0), ((signal.SIGINT,), -signal.SIGINT), ((signal.SIGHUP,), -signal.SIGHUP),
                            ((signal.SIGTERM,), -signal.SIGTERM)):
        started = tree.start("b", "s", "update", "f", "/")
        started.stdin.write(b"pw\n")
        started.stdin.flush()
        wait_until(lambda: os.path.exists(f"{tree.top}/begun"), "the long line was never due")
        time.sleep(0.5)
        for it in numbers:
            started.send_signal(it)
            time.sleep(0.2)
        out, errors = started.communicate(timeout=LIMIT)
        same(started.returncode, status, f"{numbers}: {errors}")
        same(out, b"updated 0 1 0 400000\n" if status == 0 else b"", numbers)
        same(sum(it.startswith("write ") and len(it) > 800000 for it in asked(tree)), 1, "the line as it came")
        os.remove(f"{tree.top}/begun")
        line(tree, "rm", "/big")


def a_hang_up_that_the_caller_ignores_ends_nothing(tree):
    modelled(tree).write("f/a", "1")
    wants(tree, "pauses", mkfile=f"touch {tree.top}/begun; sleep 1")
    started = tree.start("-c", "trap '' HUP; exec ./cryfs b s update f /", script="/bin/sh")
    started.stdin.write(b"pw\n")
    started.stdin.flush()
    wait_until(lambda: os.path.exists(f"{tree.top}/begun"), "it never began")
    started.send_signal(signal.SIGHUP)
    out, errors = started.communicate(timeout=LIMIT)
    same((started.returncode, out, errors), (0, b"updated 0 1 0 1\n", b""), "as under nohup")


def a_folder_that_is_exchanged_is_not_followed(tree):
    modelled(tree)
    tree.write("other/new", "1")
    other = "was exchanged for something else meanwhile"
    for put, told, rows in ((f"ln -s {tree.top}/s f/d", other, "list 0\n"), (f"ln -s {tree.top}/other f/d", other, "list 0\n"), ("touch f/d", other, "list 0\n"),
                            ("mkfifo f/d", other, "list 0\n"), ("true", "has gone meanwhile", "list 0\n"), ("cp -r other f/d", "", "list 1\nf new\n")):
        tree.write("f/d/kept", "1")
        tree.write("f/z", "1")
        # The folder above has been listed by then, and this one not yet.
        wants(tree, "hooks", mkdir__d=f"cd {tree.top}; mv f/d moved; {put}")
        status, out, errors = updated(tree, "f", "/")
        same((status, errors), (0, f"cryfs: f/d {told}: passed over\n" if told else ""), put)
        same((line(tree, "ls", "/"), line(tree, "ls", "/d")), ("list 2\nd d\nf z\n", rows), put)
        wants(tree, "hooks")
        same(tree.run("-c", f"rm -rf {tree.top}/f/d {tree.top}/moved", script="/bin/sh")[0], 0, "away")
        same(updated(tree, "f", "/", "--delete")[0], 0, "again")
        line(tree, "rm", "/z")
    os.makedirs(f"{tree.top}/f/d")
    if tree.run("--bind", "s", "f/d", script="/bin/mount")[0]:
        print("nothing can be mounted here: left out")
        return
    tree.run("f/d", script="/bin/umount")
    wants(tree, "hooks", mkdir__d=f"mount --bind {tree.top}/s {tree.top}/f/d")
    try:
        status, out, errors = updated(tree, "f", "/")
        same((status, out, errors), (12, "", "cryfs: f/d: BLOCKS or STATE, which isn't copied\ncryfs: host folder fault\n"), "STATE itself")
    finally:
        tree.run("f/d", script="/bin/umount")


def what_goes_or_is_exchanged_is_passed_over(tree):
    modelled(tree)
    for name in ("a", "b", "c", "d", "saved"):
        tree.write(f"f/{name}", name)
    os.symlink("a", f"{tree.top}/f/link")
    changes = ("ln -sf ../s/cryfs.localstate b", "rm c", "rm d; mkfifo d", "rm link; mkdir link", "echo new >new; mv new saved")
    wants(tree, "hooks", mkdir__=f"cd {tree.top}/f; {'; '.join(changes)}")
    status, out, errors = updated(tree, "f", "/")
    same((status, out), (0, "updated 0 2 0 5\n"), errors)
    same(errors.splitlines(), ["cryfs: f/b was exchanged for something else meanwhile: passed over", "cryfs: f/c has gone meanwhile: passed over",
                               "cryfs: f/d was exchanged for something else meanwhile: passed over",
                               "cryfs: f/link was exchanged for something else meanwhile: passed over"], "what is named")
    same(line(tree, "ls", "/"), "list 2\nf a\nf saved\n", "what is there")
    wants(tree, "hooks")
    for name in ("c", "gone"):
        tree.write(f"f/{name}", name)
    os.remove(f"{tree.top}/f/d")
    same(updated(tree, "f", "/")[0], 0, "again")
    wants(tree, "hooks", ls__=f"rm -f {tree.top}/f/gone")
    same(updated(tree, "f", "/", "--delete")[0], 0, "one that goes before it is listed")
    has(line(tree, "ls", "/"), "f c\n")


def an_alarm_at_a_link_is_told(tree):
    modelled(tree)
    os.makedirs(f"{tree.top}/f")
    os.symlink("a", f"{tree.top}/f/link")
    same(updated(tree, "f", "/")[0], 0, "an update")
    wants(tree, "answers", readlink="fault directory")
    same(updated(tree, "f", "/"), (14, "fault directory /link\n", "cryfs: copy stopped\n"), "a fault")
    wants(tree, "answers", readlink="error invalid")
    same(updated(tree, "f", "/"), (13, "error invalid /link\n", "cryfs: copy refused\n"), "an error")
    wants(tree, "answers", readlink="violation missing")
    same(updated(tree, "f", "/"), (5, "violation missing /link\n", "cryfs: integrity violation\n"), "a violation")


def names_are_told_without_their_escapes(tree):
    modelled(tree)
    odd = "\x1b]0;title\x07 \n\\x0a \u202e\x85ü"
    told = "\\x1b]0;title\\x07 \\x0a\\x5cx0a \\xe2\\x80\\xae\\xc2\\x85ü"
    os.makedirs(f"{tree.top}/f/{odd}")
    os.mkfifo(f"{tree.top}/f/{odd}/pipe")
    has(updated(tree, "f", "/")[2], f"cryfs: f/{told}/pipe is no file, folder or link: --leave-out goes on without it\n")
    has(updated(tree, "f", "/", "--leave-out")[2], f"cryfs: f/{told}/pipe is no file, folder or link: left out\n")
    has(updated(tree, f"f/{odd}/none", "/")[2], f"cryfs: f/{told}/none: No such file or directory\n")
    has(tree.run("b", odd, "ls", "/")[2], f"/{told}: name the right folder")
    with open(f"{tree.top}/f/".encode() + b"\xff\x9b", "wb"):
        pass
    os.remove(f"{tree.top}/f/{odd}/pipe")
    has(updated(tree, "f", "/")[2], "cryfs: f/\\xff\\x9b has a name that is no text: --leave-out")
    same(updated(tree, "f", "/\x1b[31m\x7f")[1], "error no-entry /\\x1b[31m\\x7f\n", "a path of the file system")


def a_row_of_another_kind_is_there_until_the_new_one_is(tree):
    modelled(tree)
    tree.write("f/a/b/c", "1")
    tree.write("f/x", "1")
    os.symlink("a", f"{tree.top}/f/y")
    same(updated(tree, "f", "/")[0], 0, "the old rows")
    for it in ("a", "x", "y"):
        tree.run("-rf", f"f/{it}", script="/bin/rm")
    tree.write("f/a", "file")
    tree.write("f/y", "file")
    tree.write("f/x/d", "1")
    asked(tree)
    same(updated(tree, "f", "/")[1:], ("error exists /a\n", "cryfs: copy refused\n"), "without --delete")
    same(updated(tree, "f", "/", "--delete"), (0, "updated 1 3 0 9\nremoved 2 2 1\n", ""), "with it")
    lines = [it for it in asked(tree) if it.partition(" ")[0] in ("mv", "mkdir", "rm", "rmdir", "mkfile")]
    new, old = "/.sergunad-update/new", "/.sergunad-update/old"
    same(lines, ["mkdir /.sergunad-update", f"mkfile {new}", "rm /a/b/c", "rmdir /a/b", f"mv /a {old}", f"mv {new} /a", f"rmdir {old}",
                 f"mv /x {old}", "mkdir /x", f"rm {old}", f"mkfile {new}", f"mv /y {old}", f"mv {new} /y", f"rm {old}",
                 f"mkfile {new}", f"mv {new} /x/d", "rmdir /.sergunad-update"], "the lines that change")
    same(line(tree, "ls", "/"), "list 3\nf a\nd x\nf y\n", "what is there")


def modes_and_times_are_those_here(tree):
    modelled(tree)
    tree.write("f/d/run", "1")
    tree.write("f/plain", "1")
    os.chmod(f"{tree.top}/f/d/run", 0o4751)
    os.chmod(f"{tree.top}/f/d", 0o700)
    os.utime(f"{tree.top}/f/d", ns=(-(10**9), 5 * 10**9 + 1))
    same(updated(tree, "f", "/")[0], 0, "an update")
    lines = [it for it in asked(tree) if it.partition(" ")[0] in ("mv", "mkdir", "chmod", "utime")]
    same([it for it in lines if it.startswith("chmod")], ["chmod /.sergunad-update/new 4751", "chmod /d 700"], "modes that new rows don't have")
    same(lines[-2:], ["chmod /d 700", "utime /d 0.000000000 5.000000001"], "a directory behind what is below it")
    same([line(tree, "stat", it).split()[2] for it in ("/d", "/d/run", "/plain")], ["700", "4751", "644"], "what is there")
    os.chmod(f"{tree.top}/f/plain", 0o600)
    same(updated(tree, "f", "/"), (0, "updated 0 0 0 0\n", ""), "a mode alone")
    same(line(tree, "stat", "/plain").split()[2], "600", "the mode")
    asked(tree)
    same(updated(tree, "f", "/")[0], 0, "again")
    same([it for it in asked(tree) if it.partition(" ")[0] in ("chmod", "utime", "write")], [], "nothing changed")


def random_rows(chance):
    """Rows of three levels, of each kind, with names that come again."""
    rows = {}
    for path in ("a", "b", "c", "d", "a/x", "a/y", "b/x", "b/y", "a/x/1", "b/y/1"):
        above = os.path.dirname(path)
        if chance.randrange(5) and (not above or rows.get(above, "") is None):
            rows[path] = chance.choice([None, None, b"", b"one", b"two", "to1", "to2"])
    return rows


def seen_rows(rows):
    """The rows that the model tells, as those of a folder."""
    return {path[1:]: None if row["kind"] == "d" else bytes.fromhex(row["hex"]) if row["kind"] == "f" else bytes.fromhex(row["target"]).decode()
            for path, row in rows.items() if path != "/"}


def each_point_of_an_update_has_the_old_row_or_the_new_one(tree):
    modelled(tree)
    updates, chance = kill_updates.Updates.__new__(kill_updates.Updates), random.Random(3)
    updates.rows, updates.counts = {}, dict.fromkeys(("kills", "in part", "whole", "not at all", "between two rows"), 0)
    for number in range(25):
        after = random_rows(chance)
        make_rows(f"{tree.top}/f{number}", after)
        tree.write(f"{OUT}/history", "")
        status, _, errors = updated(tree, f"f{number}", "/", "--delete-all")
        same((status, errors), (0, ""), f"update {number}")
        points = [seen_rows(json.loads(it)) for it in tree.read(f"{OUT}/history").splitlines()]
        for found in points:
            try:
                updates.judge(found, after, -signal.SIGKILL)
            except kill_updates.Lost as why:
                raise AssertionError(f"update {number}: {why}") from None
        same(points[-1], after, f"the end of update {number}")
        updates.rows = after
    require(updates.counts["between two rows"] > 5 and updates.counts["in part"] > 50, updates.counts)


def an_exchange_is_whole_or_undone(tree):
    modelled(tree)
    tree.write("f/a", "1")
    same(updated(tree, "f", "/")[0], 0, "the old row")
    os.remove(f"{tree.top}/f/a")
    os.symlink("b", f"{tree.top}/f/a")
    wants(tree, "answers", **{"mv__.sergunad-update/new": "spent"})
    same(updated(tree, "f", "/", "--delete"), (14, "spent /a\n", "cryfs: copy stopped\n"), "a second move that is refused")
    same((line(tree, "ls", "/"), line(tree, "stat", "/a")[:6]), ("list 2\nd .sergunad-update\nf a\n", "stat f"), "the old row")
    wants(tree, "answers")
    wants(tree, "pauses", mv__a=f"kill -TERM $(cat {tree.top}/pid); sleep 1")
    same(tree.run("-c", "echo $$ >pid; exec ./cryfs b s update f / --delete", given=b"pw\n", script="/bin/sh")[:2], (-signal.SIGTERM, ""), "a signal")
    has(line(tree, "ls", "/"), "l a\n")
    wants(tree, "pauses")
    same(updated(tree, "f", "/", "--delete"), (0, "updated 0 0 0 0\nremoved 0 0 0\n", ""), "again")
    same(line(tree, "ls", "/"), "list 1\nl a\n", "what is left")


def rows_of_that_name_which_are_no_updates_stay(tree):
    modelled(tree)
    tree.write("f/a", "1")
    for lines in (("mkfile /.sergunad-update",), ("symlink x /.sergunad-update",), ("mkdir /.sergunad-update", "mkfile /.sergunad-update/mine"),
                  ("mkdir /.sergunad-update", "mkdir /.sergunad-update/new"),
                  ("mkdir /.sergunad-update", "mkdir /.sergunad-update/old", "mkfile /.sergunad-update/old/x")):
        for it in lines:
            same(line(tree, *it.split()), "ok\n", it)
        before = line(tree, "ls", "/")
        for words in ((), ("--delete",)):
            same(updated(tree, "f", "/", *words), (13, "error exists /.sergunad-update\n", "cryfs: copy refused\n"), lines)
        same(line(tree, "ls", "/"), before, "what is there")
        same(tree.run("b", "s", "rm", "-r", "/.sergunad-update", given=b"pw\n")[0], 0, "away")
    for it in ("mkdir /.sergunad-update", "mkfile /.sergunad-update/new", "mkdir /.sergunad-update/old"):
        line(tree, *it.split())
    same(updated(tree, "f", "/"), (0, "updated 0 1 0 1\n", ""), "what an update left")
    same(line(tree, "ls", "/"), "list 1\nf a\n", "it went")


def an_empty_folder_deletes_nothing_unasked(tree):
    modelled(tree)
    tree.write("f/d/a", "1")
    same(updated(tree, "f", "/")[0], 0, "an update")
    os.makedirs(f"{tree.top}/g")
    status, out, errors = updated(tree, "g", "/", "--delete")
    same((status, out), (1, ""), errors)
    has(errors, "cryfs: FOLDER has nothing to copy, and all 1 rows of PATH would go", "--delete-all")
    os.mkfifo(f"{tree.top}/g/pipe")
    same(updated(tree, "g", "/", "--delete", "--leave-out")[0], 1, "with a pipe alone")
    os.remove(f"{tree.top}/g/pipe")
    same(line(tree, "ls", "/d"), "list 1\nf a\n", "all is there")
    same(updated(tree, "g", "/"), (0, "updated 0 0 0 0\n", ""), "without --delete")
    same(updated(tree, "g", "/", "--delete-all"), (0, "updated 0 0 0 0\nremoved 1 1 0\n", ""), "where that is asked")
    same(updated(tree, "g", "/", "--delete"), (0, "updated 0 0 0 0\nremoved 0 0 0\n", ""), "where there is nothing")


def a_dry_run_changes_nothing(tree):
    modelled(tree)
    for it in ("d/a", "d/b", "e/f/g", "kind", "same"):
        tree.write(f"f/{it}", it)
    same(updated(tree, "f", "/")[0], 0, "an update")
    tree.write("f/d/a", "longer than it was")
    for it in ("e", "kind"):
        tree.run("-r", f"f/{it}", script="/bin/rm")
    tree.write("f/kind/new", "1")
    os.symlink("d", f"{tree.top}/f/link")
    os.utime(f"{tree.top}/f/same", (5, 5))
    asked(tree)
    told = "remove /kind\nmkdir /kind\nsymlink /link\nwrite /d/a\nwrite /kind/new\n"
    same(updated(tree, "f", "/", "--dry-run")[:2], (13, "error exists /kind\n"), "without --delete")
    status, out, errors = updated(tree, "f", "/", "--dry-run", "--delete")
    same((status, sorted(out.splitlines()), errors), (0, sorted((told + "remove /e\nwould update 1 2 1 19\nwould remove 2 2 0\n").splitlines()), ""), "told")
    same([it for it in asked(tree) if it and it.split()[0] not in ("ls", "stat", "read", "readlink")], [], "lines that change")
    same(updated(tree, "f", "/", "--delete"), (0, "updated 1 2 1 19\nremoved 2 2 0\n", ""), "what it does")
    os.remove(f"{tree.top}/f/d/b")
    wants(tree, "hooks", rm__d_b=f"ls {tree.top}/f >{tree.top}/never")
    same(updated(tree, "f", "/", "--dry-run", "--delete")[1], "remove /d/b\nwould update 0 0 0 0\nwould remove 0 1 0\n", "one file")
    require(not os.path.exists(f"{tree.top}/never"), "it was asked")


def what_cannot_be_read_is_left_out_where_that_is_asked(tree):
    modelled(tree)
    for it in ("f/a", "f/b", "f/d/e"):
        tree.write(it, "1")
    as_other = ("setpriv", "--reuid=1234", "--regid=1234", "--clear-groups") if os.getuid() == 0 else ()
    same(updated(tree, "f", "/")[0], 0, "an update")
    for it in ("f/b", "f/d"):
        tree.write(f"{it}2" if it == "f/b" else "f/new/x", "1")
        os.chmod(f"{tree.top}/{it}", 0)
    tree.run("-c", f"chown -R 1234 {tree.top} && chmod 755 {os.path.dirname(tree.top)}" if as_other else "true", script="/bin/sh")

    def update(*words):
        return tree.run(*as_other, "./cryfs", "b", "s", "update", "f", "/", *words, given=b"pw\n", script="/usr/bin/env")

    status, out, errors = update()
    same((status, out), (12, ""), errors)
    has(errors, "cryfs: f/b can't be read (Permission denied): --leave-out goes on without it\n")
    status, out, errors = update("--leave-out", "--delete")
    same((status, out), (0, "updated 1 2 0 2\nremoved 0 0 0\n"), errors)
    has(errors, "cryfs: f/b can't be read (Permission denied): left out\n", "cryfs: f/d can't be read (Permission denied): left out\n")
    same(tree.run("-R", "u+rwX", "f", script="/bin/chmod")[0], 0, "the rights are back")
    same(line(tree, "ls", "/d"), "list 1\nf e\n", "what couldn't be read stays")


def deep_folders_are_reached(tree):
    modelled(tree)
    deep = "/".join("x" for _ in range(1500))
    path = f"{tree.top}/f"
    os.mkdir(path)
    here = os.open(path, os.O_RDONLY)
    for it in deep.split("/"):
        os.mkdir(it, dir_fd=here)
        below = os.open(it, os.O_RDONLY, dir_fd=here)
        os.close(here)
        here = below
    os.close(os.open("file", os.O_WRONLY | os.O_CREAT, dir_fd=here))
    os.close(here)
    found = updated(tree, "f", "/")
    # (python's own way would go too deep for itself)
    tree.run("-rf", "f", script="/bin/rm")
    same(found, (0, "updated 1500 1 0 0\n", ""), "a deep tree")
    same(line(tree, "ls", "/" + deep), "list 1\nf file\n", "the deepest folder")


CASES = [each_point_of_an_update_has_the_old_row_or_the_new_one, a_long_line_comes_whole_through_stops_and_signals,
         a_hang_up_that_the_caller_ignores_ends_nothing, a_folder_that_is_exchanged_is_not_followed, what_goes_or_is_exchanged_is_passed_over,
         an_alarm_at_a_link_is_told, names_are_told_without_their_escapes, a_row_of_another_kind_is_there_until_the_new_one_is,
         modes_and_times_are_those_here, an_exchange_is_whole_or_undone, rows_of_that_name_which_are_no_updates_stay, an_empty_folder_deletes_nothing_unasked,
         a_dry_run_changes_nothing, what_cannot_be_read_is_left_out_where_that_is_asked, deep_folders_are_reached]
