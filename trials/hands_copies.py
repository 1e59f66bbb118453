"""Cases of `./cryfs import` and `./cryfs export` over the program that was built in this checkout, on real folders."""
import os
import random
import shutil
import socket

from hands_real import asks, line, made
from hands_tree import has, require, same, wait_until

# Names that a shell, a script or a terminal would take for something else, and the longest ones.
ODD = ["-rf", " ", "a b", "\\x20", "new\nline", "tab\t", "\x1b[31m", "'\"$(x)`", "...", "..a", "~", "*", "ü", "日本語", "\u202e", "x" * 255,
       "é" * 127, "CON", "a:b", "#", "%2f", "\x01\x7f"]


def filled(tree, name="f"):
    """A folder with 2,000 files, odd names, links that lead everywhere, empty and deep folders."""
    top, chance = f"{tree.top}/{name}", random.Random(5)
    folders = [top, *(f"{top}/{it}" for it in ("d", "d/e", "empty", "deep/" * 60)), *(f"{top}/odd/{it}" for it in ODD)]
    for folder in folders:
        os.makedirs(folder)
    for number in range(2000 - len(ODD)):
        with open(f"{chance.choice(folders)}/{number}", "wb") as file:
            file.write(chance.randbytes(chance.choice((0, 1, 40, 40, 40, 16298, 16299, 40000))))
    for it in ODD:
        with open(f"{top}/d/{it}", "wb") as file:
            file.write(it.encode())
    with open(f"{top}/pieces", "wb") as file:
        file.write(chance.randbytes((2 << 20) + 1))
    with open(f"{top}/sparse", "wb") as file:
        file.truncate(3 << 20)
    for number, target in enumerate(["d", "d/e", ".", "..", "/", "nowhere", f"{number_of(0)}", "/proc/self", "ü", "a b", "x" * 4095, "new\nline"]):
        os.symlink(target, f"{top}/link{number}")
    return name


def number_of(number):
    """The name of a link, which leads to itself where it is its own target."""
    return f"link{number + 6}"


def copies(tree, *words, given=b"pw\n"):
    return tree.run("b", "s", *words, given=given)


def counted(folder):
    """What a copy of the folder tells: its folders, files and links, and the bytes of the files."""
    dirs = files = links = size = 0
    for at, below, names in os.walk(folder):
        for path in (f"{at}/{it}" for it in below + names):
            if os.path.islink(path):
                links += 1
            elif os.path.isdir(path):
                dirs += 1
            else:
                files, size = files + 1, size + os.path.getsize(path)
    return f"{dirs} {files} {links} {size}\n"


def is_equal(tree, one, other):
    same(tree.run("-r", "--no-dereference", one, other, script="/usr/bin/diff"), (0, "", ""), f"{one} and {other}")


def a_folder_comes_back_equal(tree):
    made(tree)
    filled(tree)
    os.mkdir(f"{tree.top}/g")
    same(copies(tree, "import", "f", "/"), (0, "imported " + counted(f"{tree.top}/f"), ""), "import")
    same(copies(tree, "export", "g", "/"), (0, "exported " + counted(f"{tree.top}/f"), ""), "export")
    is_equal(tree, "f", "g")
    line(tree, "mkdir", "/sub")
    same(copies(tree, "import", "g/d", "/sub"), (0, "imported " + counted(f"{tree.top}/g/d"), ""), "import below a directory")
    os.mkdir(f"{tree.top}/h")
    same(copies(tree, "export", f"{tree.top}/h/", "/sub"), (0, "exported " + counted(f"{tree.top}/g/d"), ""), "export of a directory")
    is_equal(tree, "f/d", "h")


def what_stands_in_the_way_is_told(tree):
    made(tree)
    for path in ("f/d", "g", "empty"):
        os.makedirs(f"{tree.top}/{path}")
    tree.write("f/d/f", "ab")
    os.symlink("d/f", f"{tree.top}/f/l")
    same(copies(tree, "import", "f", "/"), (0, "imported 1 1 1 2\n", ""), "the first time")
    same(line(tree, "ls", "/"), "list 2\nd d\nl l\n", "what stands there")
    same(copies(tree, "import", "f", "/"), (13, "error exists /d\n", "cryfs: copy refused\n"), "again")
    same(copies(tree, "import", "f", "/none"), (13, "error no-entry /none/d\n", "cryfs: copy refused\n"), "to nowhere")
    same(copies(tree, "import", "f", "/d/f"), (13, "error not-directory /d/f/d\n", "cryfs: copy refused\n"), "to a file")
    same(copies(tree, "import", "empty", "/none"), (0, "imported 0 0 0 0\n", ""), "an empty folder asks nothing")
    same(copies(tree, "export", "f", "/"), (13, "error not-empty /\n", "cryfs: copy refused\n"), "into a folder with rows")
    same(copies(tree, "export", "g", "/none"), (13, "error no-entry /none\n", "cryfs: copy refused\n"), "from nowhere")
    same(copies(tree, "export", "g", "/"), (0, "exported 1 1 1 2\n", ""), "into an empty folder")
    is_equal(tree, "f", "g")
    same(copies(tree, "import", "f", "/d", given=b"pv\n")[0], 3, "a wrong password")


def a_folder_that_cannot_be_copied_is_told(tree):
    made(tree)
    os.makedirs(f"{tree.top}/f/a")
    missing = "cryfs: none: No such file or directory (os error 2)\ncryfs: host folder fault\n"
    for word in ("import", "export"):
        same(copies(tree, word, "none", "/"), (12, "", missing), f"{word}, a missing folder")
        same(copies(tree, word, "pw", "/"), (12, "", "cryfs: pw: Not a directory (os error 20)\ncryfs: host folder fault\n"), f"{word}, a file")
    os.mkfifo(f"{tree.top}/f/a/pi\npe")
    kept = socket.socket(socket.AF_UNIX)
    kept.bind(os.path.relpath(f"{tree.top}/f/a/socket"))
    status, out, errors = copies(tree, "import", "f", "/")
    same((status, out), (12, ""), "a pipe and a socket")
    same(sorted(errors.splitlines()), ["cryfs: f/a/pi\\x0ape is no file, folder or link", "cryfs: f/a/socket is no file, folder or link",
                                       "cryfs: host folder fault"], "what is told")
    kept.close()
    with open(f"{tree.top}/f".encode() + b"/na\xffme", "wb"):
        pass
    same(copies(tree, "import", "f", "/"), (12, "", "cryfs: f holds a name that is no text\ncryfs: host folder fault\n"), "a name")
    # What an import copied before it failed stays, and nothing else does.
    same(line(tree, "ls", "/"), "list 1\nd a\n", "what was copied before")
    os.symlink("pw", f"{tree.top}/link")
    same(copies(tree, "export", "link", "/")[0], 12, "a link to a file")


def what_is_no_row_is_left_out_where_that_is_asked(tree):
    made(tree)
    tree.write("f/a/file", "ab")
    os.mkfifo(f"{tree.top}/f/a/pi\npe")
    os.symlink("a", f"{tree.top}/f/link")
    kept = socket.socket(socket.AF_UNIX)
    kept.bind(os.path.relpath(f"{tree.top}/f/socket"))
    told = ["cryfs: f/a/pi\\x0ape is no file, folder or link: left out", "cryfs: f/socket is no file, folder or link: left out"]
    for words in (("--leave-out",), ("--quiet", "--leave-out"), ("--leave-out", "--quiet")):
        line(tree, "mkdir", f"/{''.join(words)}")
        status, out, errors = copies(tree, "import", "f", f"/{''.join(words)}", *words)
        same((status, out), (0, "imported 1 1 1 2\n"), f"an import {words}")
        same(sorted(errors.splitlines()), told, "what is told")
        same(line(tree, "ls", f"/{''.join(words)}"), "list 2\nd a\nl link\n", "what stands there")
    kept.close()
    # What can't be copied for another cause is a fault as ever.
    with open(f"{tree.top}/f".encode() + b"/na\xffme", "wb"):
        pass
    same(copies(tree, "import", "f", "/", "--leave-out")[:2], (12, ""), "a name that is no text")
    same(copies(tree, "import", ".", "/", "--leave-out")[:2], (12, ""), "a folder with those of the run in it")
    for words in (("export", "g", "/", "--leave-out"), ("import", "f", "/", "--leave-out", "--leave-out"), ("check", "--leave-out")):
        same(tree.run("b", "s", *words, given=b"pw\n", script="./crates/cryfs/out/cryfs"), (1, "", "cryfs: usage\n"), f"the program's {words}")


def the_folders_of_the_run_are_left(tree):
    made(tree)
    os.makedirs(f"{tree.top}/b/below")
    os.symlink("b/below", f"{tree.top}/link")
    status, out, errors = copies(tree, "import", ".", "/")
    same((status, out), (12, ""), "a folder with both in it")
    told = [f"cryfs: ./{it} is the block folder or the state folder" for it in ("b", "s")] + ["cryfs: host folder fault"]
    same(sorted(errors.splitlines()), sorted(told), "what is told")
    for word in ("import", "export"):
        for folder in ("b", "s", "b/below", "link"):
            status, out, errors = copies(tree, word, folder, "/")
            same((status, out), (12, ""), f"{word} {folder}")
            has(errors, f"cryfs: {folder} is the block folder or the state folder, or lies in one\n")
    same(line(tree, "ls", "/"), "list 0\n", "the file system")


def a_copy_that_fails_in_the_middle_is_told(tree):
    made(tree)
    filled(tree)
    os.mkdir(f"{tree.top}/small")
    if tree.run("-t", "tmpfs", "-o", "size=1m", "none", f"{tree.top}/small", script="/bin/mount")[0]:
        print("no small disk can be mounted here: left out")
        return
    try:
        same(copies(tree, "import", "f", "/")[0], 0, "import")
        status, out, errors = copies(tree, "export", "small", "/")
        same((status, out), (12, ""), "a full disk")
        has(errors, "No space left on device", "cryfs: host folder fault\n")
    finally:
        tree.run(f"{tree.top}/small", script="/bin/umount")
    if shutil.which("strace"):
        # The second save of a record fails once, and the copy with it; that of closing doesn't.
        tree.write("g/f", "x" * (20 << 20))
        words = ["-qqfo", "/dev/null", "-e", "trace=rename", "-e", "inject=rename:error=EIO:when=2", f"{tree.top}/cryfs"]
        status, out, errors = tree.run(*words, "b", "s", "import", "g", "/empty", given=b"pw\n", script=shutil.which("strace"))
        same((status, out), (14, "fault state\n"), "a record that isn't saved")
        has(errors, "cryfs: copy stopped\n")


def how_far_it_is_is_seen_at_a_terminal(tree):
    made(tree)
    os.mkdir(f"{tree.top}/f")
    with open(f"{tree.top}/f/big", "wb") as file:
        file.truncate(96 << 20)
    terminal = asks(tree, "import", "f", "/")
    terminal.expect("\rcryfs: 1 files, ")
    terminal.expect("\x1b[K")
    status, seen = terminal.end()
    same(status, 0, seen)
    has(seen, "\r\nimported 1 file, 101 MB in ")
    require("MiB" not in seen.partition("imported")[2], seen)
    line(tree, "mkdir", "/quiet")
    terminal = asks(tree, "import", "f", "/quiet", "--quiet")
    status, seen = terminal.end()
    same(status, 0, seen)
    has(seen, "\r\nimported 1 file, 101 MB in ")
    require("MiB" not in seen and "files" not in seen, seen)
    terminal = asks(tree, "import", "none", "/")
    status, seen = terminal.end()
    same(status, 12, seen)
    has(seen, "cryfs: none: No such file or directory", "cryfs: host folder fault\r\ncryfs: FOLDER isn't there: ")
    terminal = asks(tree, "import", "f", "/")
    status, seen = terminal.end()
    same(status, 13, seen)
    has(seen, "error exists /big\r\n", "cryfs: copy refused\r\ncryfs: `import` met what is there, where the output says `exists`")


def a_copy_that_is_stopped_leaves_a_part(tree):
    made(tree)
    os.mkdir(f"{tree.top}/f")
    with open(f"{tree.top}/f/big", "wb") as file:
        file.truncate(1 << 30)
    terminal = asks(tree, "import", "f", "/")
    terminal.expect(" MiB, ")
    terminal.send("\3")
    same(terminal.end()[0] != 0, True, "after an interrupt")
    wait_until(lambda: copies(tree, "ls", "/")[0] == 0, "it opens again")


CASES = [a_folder_comes_back_equal, what_stands_in_the_way_is_told, a_folder_that_cannot_be_copied_is_told,
         what_is_no_row_is_left_out_where_that_is_asked, the_folders_of_the_run_are_left,
         a_copy_that_fails_in_the_middle_is_told, how_far_it_is_is_seen_at_a_terminal, a_copy_that_is_stopped_leaves_a_part]
