"""Cases of `./cryfs check` over the program that was built in this checkout, on real folders."""
import glob
import hashlib
import os
import shutil

from hands_real import asks, line, made
from hands_tree import has, same


def filled(tree):
    """A file system with a file of several blocks two folders down, and an empty one."""
    made(tree)
    given = b"pw\nmkdir /a\nmkdir /a/b\\x20c\nmkfile /a/b\\x20c/f\ntruncate /a/b\\x20c/f 100000\nmkfile /e\n"
    same(tree.run("b", "s", "shell", given=given), (0, "ok\n" * 5, ""), "the session")
    return tree


def checked(tree):
    return tree.run("b", "s", "check", given=b"pw\n")


def block_files(tree):
    """The files of blocks, below their folders of three digits."""
    return sorted(glob.glob(f"{tree.top}/b/[0-9A-F][0-9A-F][0-9A-F]/*"))


def contents(*folders):
    """Each file below the folders, with its bytes and when it was changed."""
    found = {}
    for folder in folders:
        for at, _, names in os.walk(folder):
            for path in (f"{at}/{it}" for it in names):
                with open(path, "rb") as file:
                    found[path] = hashlib.sha256(file.read()).hexdigest(), os.stat(path).st_mtime_ns
    return found


def a_check_names_the_owner_of_each_block(tree):
    filled(tree)
    before = contents(f"{tree.top}/b", f"{tree.top}/s")
    status, out, errors = checked(tree)
    lines = out.splitlines()
    ids = ["".join(it.split("/")[-2:]) for it in block_files(tree)]
    same((status, errors, lines[0]), (0, "", f"check yes {len(ids)}"), "the first line")
    same([it.split()[:2] for it in lines[1:]], [["block", it] for it in ids], "the blocks, by their ids")
    paths = [it.split()[2] for it in lines[1:]]
    same({it: paths.count(it) for it in sorted(set(paths))}, {"/": 1, "/a": 1, "/a/b\\x20c": 1, "/a/b\\x20c/f": len(ids) - 4, "/e": 1}, "owners")
    same(contents(f"{tree.top}/b", f"{tree.top}/s"), before, "what a check leaves")
    status, seen = asks(tree, "check").end()
    same(status, 0, "at a terminal")
    has(seen, f"check yes: all {len(ids)} blocks in ", "/a/b c/f\r\n")
    short = f"check yes {len(ids)}\n"
    for words in ((), ("--all",)):
        same(tree.run("b", "s", "check", *words, "--quiet", given=b"pw\n"), (0, short, ""), "a short one")


def a_check_names_strange_files(tree):
    filled(tree)
    strange = ["x y", "new/line\\x0a", "000/0", "0" * 32, "cryfs.config.old", "deep/er/f"]
    for name in strange:
        path = f"{tree.top}/b/" + name.replace("\\x0a", "\n")
        os.makedirs(os.path.dirname(path), exist_ok=True)
        open(path, "w").close()
    os.symlink("/", f"{tree.top}/b/link")
    os.mkfifo(f"{tree.top}/b/pipe")
    status, out, errors = checked(tree)
    wanted = sorted([*strange, "link", "pipe"], key=lambda it: it.replace("\\x0a", "\n").encode())
    found = [it for it in out.splitlines() if it.startswith("stranger ")]
    same((status, errors), (0, ""), "check")
    same(found, ["stranger " + it.replace(" ", "\\x20") for it in wanted], "strange names")


def a_check_notices_each_damage(tree):
    filled(tree)
    for folder in ("b", "s"):
        shutil.copytree(f"{tree.top}/{folder}", f"{tree.top}/whole/{folder}")
    for number, name in enumerate(block_files(tree)):
        kind = ("removed", "cut", "changed")[number % 3]
        if kind == "removed":
            os.remove(name)
        elif kind == "cut":
            os.truncate(name, 100)
        else:
            with open(name, "r+b") as file:
                file.seek(200)
                byte = file.read(1)
                file.seek(200)
                file.write(bytes([byte[0] ^ 1]))
        status, out, errors = checked(tree)
        same((status, out.split()[0], out.count("\n"), errors), (5, "violation", 1, "cryfs: integrity violation\n"), f"{kind} {name}")
        for words in ("check", "info", "ls /"):
            same(tree.run("b", "s", *words.split(), given=b"pw\n"), (5, "", "cryfs: integrity violation\n"), "over a marked record")
        for folder in ("b", "s"):
            shutil.rmtree(f"{tree.top}/{folder}")
            shutil.copytree(f"{tree.top}/whole/{folder}", f"{tree.top}/{folder}")
    same(checked(tree)[0], 0, "what was put back")
    same(line(tree, "ls", "/"), "list 2\nd a\nf e\n", "a session")


CASES = [a_check_names_the_owner_of_each_block, a_check_names_strange_files, a_check_notices_each_damage]
