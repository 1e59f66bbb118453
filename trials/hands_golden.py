"""Cases of file systems that another program made: the stored one of before, and those of each that was built here."""
import os
import shutil
import sys
from types import SimpleNamespace

import golden
import kill_migrate
from hands_tree import has, programs_here, same

REPORT = bytearray.fromhex(golden.REPORT)[:1900]
REPORT[1000:1002] = b"\xff\xee"
# What stands there after the second session of golden.py, and after the third.
BOTH = {"read /docs/note 0 100": "data 0000006162630a", "read /docs/report 0 4000": f"data {REPORT.hex()}",
        "ls /docs/deep/er": r"list 1;f new\x20name"}
SECOND = {**BOTH, "ls /": "list 2;d docs;l link", "ls /docs": "list 3;d deep;f note;f report", "readlink /link": "link ../docs/note"}
THIRD = {**BOTH, "ls /": "list 1;d docs", "ls /docs": "list 4;d deep;f late;f note;f report", "readlink /docs/deep/link": "link ../docs/note",
         "read /docs/late 0 10": "data 6c617465"}


def shows(tree, wanted):
    """Whether the folders `b` and `s` show this, and a check finds nothing wrong."""
    status, out, errors = tree.run("b", "s", "shell", given=golden.PASSWORD + "".join(f"{it}\n" for it in wanted).encode())
    same((status, errors), (0, ""), "the session")
    same(out, "".join(f"{it}\n".replace(";", "\n") for it in wanted.values()), "what is there")
    status, out, errors = tree.run("b", "s", "check", given=golden.PASSWORD)
    same((status, errors), (0, ""), "the check")
    has(out, "check yes ")


def one_of_before_opens(tree):
    tree.real()
    for it in ("b", "s"):
        os.mkdir(f"{tree.top}/{it}")
    kill_migrate.lay_out(SimpleNamespace(blocks=f"{tree.top}/b", state=f"{tree.top}/s"))
    shows(tree, SECOND)


def one_of_each_program_opens(tree):
    tree.real()
    for program in programs_here():
        same(tree.run(golden.__file__, program, f"{tree.top}/made", script=sys.executable)[0], 0, "what golden.py does")
        for name, to in (("blocks", "b"), ("state", "s")):
            shutil.rmtree(f"{tree.top}/{to}", ignore_errors=True)
            shutil.move(f"{tree.top}/made/{name}", f"{tree.top}/{to}")
        shutil.rmtree(f"{tree.top}/made")
        shows(tree, THIRD)


CASES = [one_of_before_opens, one_of_each_program_opens]
