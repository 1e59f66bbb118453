"""Cases of files that are read without the record, and of copies that keep times, over the program that was built."""
import os
import shutil

from hands_copies import copies
from hands_real import line, made
from hands_tree import LIMIT, has, same

# A moment of 2020, and one of 2019.
FILE_TIME, FOLDER_TIME = 1580702706, 1546300800


def look(tree, *words):
    """A look where there is no STATE."""
    return tree.run("b", "gone", "look", *words, given=b"pw\n")


def got(tree, path):
    """The status and the bytes of a file that is got so."""
    started = tree.start("b", "gone", "look", "get", path)
    out, _ = started.communicate(b"pw\n", timeout=LIMIT)
    return started.returncode, out


def files_are_read_without_the_record(tree):
    made(tree)
    content = os.urandom(100000)
    os.makedirs(f"{tree.top}/f/d")
    tree.write("f/d/a", "hello")
    os.symlink("a", f"{tree.top}/f/d/l")
    with open(f"{tree.top}/f/big", "wb") as file:
        file.write(content)
    same(copies(tree, "import", "f", "/")[0], 0, "import")
    told = line(tree, "stat", "/d/a")
    os.rename(f"{tree.top}/s", f"{tree.top}/kept")
    before = sorted((at, sorted(names)) for at, _, names in os.walk(f"{tree.top}/b"))
    for words, answer in ((("ls", "/"), "list 2\nf big\nd d\n"), (("stat", "/d/a"), told), (("readlink", "/d/l"), "link a\n"),
                          (("read", "/d/a", "0", "9"), "data 68656c6c6f\n"), (("stat", "/no"), "error no-entry\n")):
        same(look(tree, *words), (0, answer, ""), words)
    same((got(tree, "/big"), got(tree, "/d/a")), ((0, content), (0, b"hello")), "get")
    same((os.path.exists(f"{tree.top}/gone"), sorted((at, sorted(names)) for at, _, names in os.walk(f"{tree.top}/b"))), (False, before), "what was written")
    status, out, errors = tree.run("b", "gone", "look", "ls", "/", given=b"other\n")
    same((status, out), (3, ""), errors)
    os.rename(f"{tree.top}/kept", f"{tree.top}/s")
    same(line(tree, "stat", "/d/a"), told, "with STATE again")


def what_needs_no_lost_block_is_read(tree):
    made(tree)
    os.mkdir(f"{tree.top}/f")
    tree.write("f/small", "hello")
    tree.write("f/big", "x" * 100000)
    same(copies(tree, "import", "f", "/")[0], 0, "import")
    checked = tree.run("b", "s", "check", given=b"pw\n")[1].splitlines()
    lost = next(it.split()[1].lower() for it in checked if it.endswith(" /big"))
    path = next(os.path.join(at, it) for at, _, names in os.walk(f"{tree.top}/b") for it in names if (os.path.basename(at) + it).lower() == lost)
    shutil.move(path, f"{tree.top}/lost")
    same((got(tree, "/small"), got(tree, "/big")[0]), ((0, b"hello"), 5), "one block is missing")
    has(tree.run_whole("b", "gone", "look", "get", "/big", given=b"pw\n")[2], "violation ", "`look` met a block that is missing or was changed")
    shutil.move(f"{tree.top}/lost", path)
    same(got(tree, "/big"), (0, b"x" * 100000), "it is there again")


def times_go_in_and_out(tree):
    made(tree)
    os.makedirs(f"{tree.top}/f/d")
    tree.write("f/d/a", "hello", 0o640)
    os.utime(f"{tree.top}/f/d/a", (FILE_TIME, FILE_TIME))
    os.utime(f"{tree.top}/f/d", (FOLDER_TIME, FOLDER_TIME))
    for number, words in enumerate((("import", "--times", "f", "/"), ("import", "f", "/p", "--times"))):
        if number:
            line(tree, "mkdir", "/p")
        same(copies(tree, *words), (0, "imported 1 1 0 5\n", ""), words)
    for path in ("/d/a", "/p/d/a"):
        has(line(tree, "stat", path), "stat f 640 ", f" {FILE_TIME}.000000000 ")
    os.mkdir(f"{tree.top}/out")
    same(copies(tree, "export", "out", "/p", "--times"), (0, "exported 1 1 0 5\n", ""), "export")
    told = [(os.stat(f"{tree.top}/out/{it}").st_mtime, oct(os.stat(f"{tree.top}/out/{it}").st_mode)[-3:]) for it in ("d/a", "d")]
    same(told, [(FILE_TIME, "640"), (FOLDER_TIME, "755")], "what came out")


REAL = [files_are_read_without_the_record, what_needs_no_lost_block_is_read, times_go_in_and_out]
