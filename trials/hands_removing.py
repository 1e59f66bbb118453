"""Cases of `./cryfs rm -r` over the program that was built in this checkout."""
import glob
import os
import signal

from hands_copies import copies, counted, filled
from hands_real import asks, line, made
from hands_tree import has, require, same, wait_until


def removed(tree, path):
    return tree.run("b", "s", "rm", "-r", path, given=b"pw\n")


def a_tree_goes_with_all_below_it(tree):
    made(tree)
    filled(tree)
    line(tree, "mkdir", "/a")
    line(tree, "mkdir", "/b")
    same(copies(tree, "import", "f", "/a")[0], 0, "import")
    folders, files, links, _ = map(int, counted(f"{tree.top}/f").split())
    same(removed(tree, "/a"), (0, f"removed {folders + 1} {files} {links}\n", ""), "what goes")
    same(line(tree, "ls", "/"), "list 1\nd b\n", "what stays")
    same(tree.run("b", "s", "check", given=b"pw\n")[1].splitlines()[0], "check yes 2", "the blocks that are left")


def files_links_and_empty_folders_go_alone(tree):
    made(tree)
    os.makedirs(f"{tree.top}/f/d")
    tree.write("f/a b", "ab")
    os.symlink("d", f"{tree.top}/f/l")
    same(copies(tree, "import", "f", "/")[0], 0, "import")
    for path, wanted in (("/l", "removed 0 0 1\n"), ("/a\\x20b", "removed 0 1 0\n"), ("/d", "removed 1 0 0\n")):
        same(removed(tree, path), (0, wanted, ""), path)
    same(line(tree, "ls", "/"), "list 0\n", "nothing is left")


def what_cannot_be_removed_is_told(tree):
    made(tree)
    line(tree, "mkfile", "/f")
    for path, wanted in (("/none", "error no-entry /none\n"), ("/none/x", "error no-entry /none/x\n"), ("/f/x", "error not-directory /f/x\n"),
                         ("/\\xzz", "error bad-line /\\xzz\n"), ("/" + "x" * 256, f"error name-too-long /{'x' * 256}\n"),
                         ("/a\nsync", "error no-entry /a\\x0async\n")):
        same(removed(tree, path), (13, wanted, "cryfs: removal refused\n"), path)
    for words, hint in ((["/"], "the root can't be removed"), ([], "rm -r PATH"), (["/a", "/b"], "rm -r PATH"), (["a"], "begins with /")):
        status, out, errors = tree.run("b", "s", "rm", "-r", *words, given=b"pw\n")
        same((status, out), (1, ""), words)
        has(errors, hint)
    same(tree.run("b", "s", "rm", "-r", "/f", given=b"pv\n"), (3, "", "cryfs: configuration does not open\n"), "a wrong password")
    same(tree.run("b", "s", "rm", "-r", "/f", given=b"")[0], 125, "no password")
    same(line(tree, "ls", "/"), "list 1\nf f\n", "what stays")


def the_password_comes_from_where_it_is_told(tree):
    made(tree)
    for number in range(3):
        line(tree, "mkfile", f"/{number}")
    same(tree.run("--password-file", "pw", "b", "s", "rm", "-r", "/0"), (0, "removed 0 1 0\n", ""), "a file")
    same(tree.run("b", "s", "rm", "-r", "/1", given=b"pw"), (0, "removed 0 1 0\n", ""), "a line without its end")
    status, seen = asks(tree, "rm", "-r", "/2").end()
    same(status, 0, seen)
    has(seen, "\r\nremoved 1 file in ")
    status, seen = asks(tree, "rm", "-r", "/2").end()
    same(status, 13, seen)
    has(seen, "error no-entry /2\r\n", "cryfs: removal refused\r\ncryfs: `rm` -r found nothing at PATH")


def a_violation_ends_it(tree):
    made(tree)
    os.makedirs(f"{tree.top}/f/d/e")
    same(copies(tree, "import", "f", "/")[0], 0, "import")
    rows = tree.run("b", "s", "check", given=b"pw\n")[1].splitlines()
    block = next(it.split()[1] for it in rows if it.endswith(" /d/e"))
    for path in glob.glob(f"{tree.top}/b/{block[:3]}/{block[3:]}"):
        os.remove(path)
    status, out, errors = removed(tree, "/d")
    same((status, out, errors), (5, "violation missing /d/e\n", "cryfs: integrity violation\n"), "a block that is gone")


def a_removal_whose_output_fails_is_told(tree):
    made(tree)
    line(tree, "mkfile", "/f")
    same(tree.run("-c", "exec ./cryfs --password-file pw b s rm -r /f >/dev/full", script="/bin/sh"), (9, "", "cryfs: output fault\n"), "a full disk")
    same(line(tree, "ls", "/"), "list 0\n", "it is removed")


def one_that_is_interrupted_keeps_the_rest(tree):
    made(tree)
    filled(tree)
    line(tree, "mkdir", "/a")
    same(copies(tree, "import", "f", "/a")[0], 0, "import")
    started = tree.start("b", "s", "rm", "-r", "/a")
    started.stdin.write(b"pw\n")
    started.stdin.flush()
    wait_until(lambda: os.path.exists(f"{tree.top}/s/cryfs.lock"), "it runs")
    started.send_signal(signal.SIGTERM)
    out, errors = started.communicate(timeout=60)
    if started.returncode == 0:
        has(out.decode(), "removed ")
    else:
        same((started.returncode, out), (-signal.SIGTERM, b""), errors)
        require(tree.run("b", "s", "check", given=b"pw\n")[0] == 0, "all that is left is whole")
        same(removed(tree, "/a")[0], 0, "again")
    same(line(tree, "ls", "/"), "list 0\n", "all went")


CASES = [a_tree_goes_with_all_below_it, files_links_and_empty_folders_go_alone, what_cannot_be_removed_is_told,
         the_password_comes_from_where_it_is_told, a_violation_ends_it, a_removal_whose_output_fails_is_told, one_that_is_interrupted_keeps_the_rest]
