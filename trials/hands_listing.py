"""Cases of `./cryfs ls -l`, `ls -R`, `tree` and `du`: over the program of `hands_model.py`, and over the one that was built in this checkout."""
import json
import os
import signal
import time

import hands_real
from hands_asking import OUT, asked, line, modelled, wants
from hands_names import QUIET, at_terminal
from hands_tree import has, require, same

ROWS = 30000


def grown(tree):
    """A tree of the model: folders in each other, names that aren't plain, a file of 40 bytes, one of 1500, and a link."""
    modelled(tree).write("pw", "pw\n")
    for it in ("mkdir /d", "mkdir /d/Été\\x202026", "mkfile /d/Été\\x202026/a", f"write /d/Été\\x202026/a 0 {'61' * 1500}", "mkfile /d/b",
               f"write /d/b 0 {'00' * 40}", "mkdir /d/empty", "symlink a\\x20b /d/link", "utime /d/b 1.000000000 1764504720.000000000", "mkfile /z"):
        same(line(tree, *it.split()), "ok\n", it)
    asked(tree)
    tree.exported = {"TZ": "UTC"}
    return tree


def listed(tree, *words):
    status, out, errors = tree.run(*QUIET, *words)
    same((status, errors), (0, ""), words)
    return out


def rows_are_listed_with_their_numbers(tree):
    grown(tree)
    wanted = ("drwxr-xr-x  - 1970-01-01 00:00 {}\n-rw-r--r-- 40 2025-11-30 12:12 b\ndrwxr-xr-x  - 1970-01-01 00:00 empty\n"
              "lrwxrwxrwx  3 1970-01-01 00:00 link -> {}\n")
    exact = listed(tree, "ls", "-l", "/d")
    same(exact, wanted.format("\\xc3\\x89t\\xc3\\xa9\\x202026", "a\\x20b"), "in a pipe")
    same(at_terminal(tree, *QUIET, "ls", "-l", "/d").replace("\r", ""), wanted.format("Été 2026", "a b"), "at a terminal")
    same([it for it in asked(tree) if it][:6], ["ls /d", "stat /d/\\xc3\\x89t\\xc3\\xa9\\x202026", "stat /d/b", "stat /d/empty", "stat /d/link",
                                               "readlink /d/link"], "what is asked")
    same(listed(tree, "ls", "-l", "/d/b"), "-rw-r--r-- 40 2025-11-30 12:12 /d/b\n", "a file")
    same(listed(tree, "ls", "-l", "/d/empty"), "", "a folder without rows")
    below = listed(tree, "ls", "-lR", "/d").split("\n\n")
    same(below[0], "/d:\n" + exact.rstrip("\n"), "the first folder")
    same([it.partition("\n")[0] for it in below], ["/d:", "/d/\\xc3\\x89t\\xc3\\xa9\\x202026:", "/d/empty:"], "the folders")
    same(listed(tree, "ls", "-R", "-l", "/d"), "\n\n".join(below), "options apart")


def a_tree_is_shown_and_summed(tree):
    grown(tree)
    same(listed(tree, "ls", "-R", "/"), "/:\nd d\nf z\n\n/d:\nd \\xc3\\x89t\\xc3\\xa9\\x202026\nf b\nd empty\nl link\n\n/d/\\xc3\\x89t\\xc3\\xa9\\x202026:\nf a\n\n/d/empty:\n",
         "ls -R")
    same(at_terminal(tree, *QUIET, "tree", "/").replace("\r", ""),
         "/\n├── d\n│   ├── Été 2026\n│   │   └── a\n│   ├── b\n│   ├── empty\n│   └── link\n└── z\n\n3 folders, 3 files, 1 link\n", "tree")
    has(listed(tree, "tree", "/d"), "/d\n|-- \\xc3\\x89t\\xc3\\xa9\\x202026\n|   `-- a\n|-- b\n")
    same(listed(tree, "du", "/"), "1500 /d/\\xc3\\x89t\\xc3\\xa9\\x202026\n0 /d/empty\n1540 /d\n1540 /\n", "du")
    same(at_terminal(tree, *QUIET, "du", "/d").replace("\r", ""), "  1.50 kB  /d/Été 2026\n  0 bytes  /d/empty\n  1.54 kB  /d\n", "du at a terminal")
    same((listed(tree, "du", "-s", "/"), listed(tree, "du", "/d/b"), listed(tree, "du", "/d/link")), ("1540 /\n", "40 /d/b\n", "0 /d/link\n"), "sums")
    same((listed(tree, "tree", "/z"), listed(tree, "ls", "-R", "/z")), ("/z\n", "f /z\n"), "a file")


def what_cannot_be_listed_is_told(tree):
    grown(tree)
    for words in (("ls", "-l"), ("ls", "-R"), ("tree",), ("du",), ("du", "-s")):
        same(tree.run(*QUIET, *words, "/none"), (13, "error no-entry /none\n", "cryfs: listing refused\n"), words)
        same(tree.run("--password-command=echo pv", "b", "s", *words, "/")[0], 0, "the model opens by any password")
    wants(tree, "answers", **{"stat__d/b": "violation missing"})
    status, out, errors = tree.run_whole(*QUIET, "ls", "-l", "/d")
    same((status, out), (5, "violation missing /d/b\n"), errors)
    wants(tree, "answers", **{"stat__d/b": "fault directory"})
    status, out, errors = tree.run(*QUIET, "du", "/")
    same((status, out, errors), (14, "fault directory /d/b\n", "cryfs: listing stopped\n"), "a fault")
    for words in (("ls", "-x", "/"), ("ls", "-l", "d"), ("tree",), ("tree", "-l", "/"), ("du", "-R", "/"), ("du", "/", "/"), ("ls", "-", "/")):
        same(tree.run(*QUIET, *words)[0], 1, words)


def a_list_whose_output_fails_is_told(tree):
    grown(tree)
    for words in ("ls -l /d", "ls -R /", "tree /", "du /"):
        same(tree.run("-c", f"./cryfs --password-file pw b s {words} >/dev/full", script="/bin/sh"), (9, "", "cryfs: output fault\n"), words)


def a_large_directory_takes_one_session_and_no_turns(tree):
    modelled(tree).write("pw", "pw\n")
    rows = {"/": {"kind": "d", "times": ["0.000000000"] * 2}, **{f"/{it:06}": {"kind": "f", "times": ["0.000000000"] * 2, "hex": ""} for it in range(ROWS)}}
    tree.write("b/tree", json.dumps(rows))
    # Each answer waits until further lines were given, but for the last ones: with turns this would never end.
    began = time.monotonic()
    same(listed(tree, "ls", "-l", "/").count("\n"), ROWS, "rows")
    require(time.monotonic() - began < 50, "it took too long")
    same(len([it for it in asked(tree) if it.startswith("stat ")]), ROWS, "lines")


def lines_are_given_ahead(tree):
    modelled(tree).write("pw", "pw\n")
    # A program that answers nothing before it has four lines more.
    tree.write(f"{OUT}/cryfs", "#!/bin/sh\nread -r pw; read -r line; echo 'error bad-line'; read -r line; printf 'list 4\\nf a\\nf b\\nf c\\nf d\\n'\n"
               "for it in 1 2 3 4; do read -r line; done\nfor it in 1 2 3 4; do echo 'stat f 644 0 0 7 0.000000000 0.000000000 0.000000000'; done\n"
               "read -r line\nexit 0\n", 0o755)
    same(listed(tree, "du", "-s", "/"), "28 /\n", "four lines at once")


def a_terminal_sees_how_far_it_is(tree):
    grown(tree)
    wants(tree, "hooks", **{"stat__d/b": "sleep 1.2", "stat__d/empty": "sleep 1.2"})
    seen = at_terminal(tree, *QUIET, "ls", "-l", "/d")
    has(seen, "\rcryfs: 2 of 4 rows of /d\x1b[K", "\r\x1b[Kdrwxr-xr-x  - ")


def one_that_is_interrupted_ends(tree):
    grown(tree)
    wants(tree, "hooks", **{"stat__d/b": "sleep 1"})
    started = tree.start(*QUIET, "ls", "-lR", "/")
    while "stat /d/b" not in tree.read(f"{OUT}/lines"):
        time.sleep(0.02)
    started.send_signal(signal.SIGTERM)
    out, errors = started.communicate(timeout=60)
    same(started.returncode, -signal.SIGTERM, errors)
    has(errors.decode(), "closing; a second interrupt stops it at once")


def a_real_tree_is_listed(tree):
    hands_real.made(tree)
    os.makedirs(f"{tree.top}/f/Été 2026/in it")
    tree.write("f/Été 2026/photo", "x" * 1500)
    os.symlink("photo", f"{tree.top}/f/Été 2026/link")
    same(tree.run(*QUIET, "update", "f", "/")[0], 0, "update")
    seen = at_terminal(tree, *QUIET, "ls", "/Été 2026")
    same(seen.replace("\r", ""), "list 3\nd in it\nl link\nf photo\n", "ls at a terminal")
    seen = at_terminal(tree, *QUIET, "ls", "-l", "/Été 2026").replace("\r", "").splitlines()
    same(["drwxr-xr-x", "lrwxrwxrwx", "-rw-r--r--"], [it.split()[0] for it in seen], seen)
    same([it.split(":", 1)[1][3:] for it in seen], ["in it", "link -> photo", "photo"], seen)
    same(seen[2].split()[1], "1500", seen)
    when = time.strftime("%Y-%m-%d %H:%M", time.localtime(os.stat(f"{tree.top}/f/Été 2026/photo").st_mtime))
    has(seen[2], when)
    has(at_terminal(tree, *QUIET, "tree", "/"), "└── Été 2026", "    ├── in it", "2 folders, 1 file, 1 link")
    same(tree.run(*QUIET, "du", "-s", "/")[1], "1500 /\n", "du")
    has(at_terminal(tree, *QUIET, "check"), "check yes: all 5 blocks in ", " /Été 2026/photo\r\n")
    same(tree.run(*QUIET, "check", "--quiet"), (0, "check yes 5\n", ""), "a short check")
    same(tree.run("--strict", *QUIET, "stat", "/none"), (18, "error no-entry\n", "cryfs: error answered\n"), "a strict one")
    has(at_terminal(tree, *QUIET, "import", "f", "/none", status=13), "error no-entry /none/Été 2026\r\n", "`mkdir` /none first")
    seen = at_terminal(tree, *QUIET, "import", "f", "/", status=13)
    has(seen, "error exists /Été 2026\r\n", "`update` with the same words")
    require("cryfs: or " not in seen, f"one cause alone: {seen}")


def a_real_large_directory_is_listed(tree):
    hands_real.made(tree)
    given = "".join(f"mkfile /{it:06}\n" for it in range(3000))
    same(tree.run("b", "s", "shell", given=("pw\n" + given).encode())[0], 0, "the rows")
    began = time.monotonic()
    same(listed(tree, "ls", "-l", "/").count("\n"), 3000, "rows")
    require(time.monotonic() - began < 30, "it took too long")


CASES = [rows_are_listed_with_their_numbers, a_tree_is_shown_and_summed, what_cannot_be_listed_is_told, a_list_whose_output_fails_is_told,
         a_large_directory_takes_one_session_and_no_turns, lines_are_given_ahead, a_terminal_sees_how_far_it_is,
         one_that_is_interrupted_ends]
REAL = [a_real_tree_is_listed, a_real_large_directory_is_listed]
