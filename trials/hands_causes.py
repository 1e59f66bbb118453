"""Cases of the causes that `./cryfs` tells of a status, in a pipe a line of them, over a program that ends as a case wants."""
import os
import signal

from hands_asking import OUT, line, modelled, updated, wants
from hands_tree import Terminal, has, require, same


def ends(tree, status, text, answer=""):
    """Has the program end so, behind an answer."""
    told = f"echo '{answer}'; " if answer else ""
    tree.write(f"{OUT}/cryfs", f"#!/bin/sh\nread -r line\n{told}echo 'cryfs: {text}' >&2\nexit {status}\n", 0o755)


def errors_of(tree, *words, given=b"pw\n"):
    """The lines of errors of a run."""
    return tree.run_whole(*words, given=given)[2].splitlines()


def seen_of(tree, *words):
    """What a person sees of it behind the password."""
    terminal = Terminal(tree, *words)
    if "--password-file" not in words:
        terminal.answer("Password: ", "pw")
    return terminal.end()[1]


def a_pipe_gets_a_line_of_causes(tree):
    tree.built().write("f/a", "1")
    tree.write("s/cryfs.lock", "")
    os.mkdir(f"{tree.top}/b")
    for status, text, words, told in ((3, "configuration does not open", ("ls", "/"), "the password is another one: give the right password; or `cryfs.config` was changed"),
                                      (7, "local state fault", ("ls", "/"), "STATE refused a call: disk full"),
                                      (13, "copy refused", ("import", "f", "/2026"), "`import` met what is there, where the output says"),
                                      (5, "integrity violation", ("export", "f", "/"), "STATE is an older copy, where the output says `ahead-version`: put back"),
                                      (6, "block directory fault", ("check", "--quiet"), "BLOCKS refused a call")):
        ends(tree, status, text)
        found = errors_of(tree, "b", "s", *words)
        same((len(found), found[1]), (2, f"cryfs: {text}"), found)
        require(found[0].startswith(f"cryfs: {told}"), found)
    ends(tree, 13, "copy refused")
    has(errors_of(tree, "b", "s", "import", "f", "/2026")[0], "; or `import`, `put` or `update` found no directory", ": `mkdir` /2026 first")
    has(errors_of(tree, "b", "s", "put", "/2026/a")[0], ": `mkdir` /2026 first")
    ends(tree, 13, "copy refused", "error no-entry /2026/a")
    seen = seen_of(tree, "b", "s", "import", "f", "/2026")
    has(seen, "where the output says `no-entry`: `mkdir` /2026 first, or name another")
    require("cryfs: or " not in seen, f"one cause alone: {seen}")
    tree.write(f"{OUT}/cryfs", "#!/bin/sh\nread -r line\nkill -KILL $$\n", 0o755)
    same(errors_of(tree, "b", "s", "info"), ["cryfs: `kill -9` stopped it, or the system for want of memory: remove what a copy left, and run again; "
                                             "lines after the last sync may be lost"], "a program that the system killed")
    tree.write(f"{OUT}/cryfs", "#!/bin/sh\nread -r line\necho odd >&2\nexit 77\n", 0o755)
    same(errors_of(tree, "b", "s", "info"), ["odd"], "a status that isn't known")


def an_older_state_is_named_first(tree):
    modelled(tree).write("f/a", "1")
    older = "STATE is an older copy, where the output says `ahead-version`: put back its newest copy"
    other = "BLOCKS gave something else than was last written, and STATE is marked"
    tree.run("-a", "s", "good", script="/bin/cp")
    for answer, first, last in (("violation ahead-version 28 30", older, other), ("violation old-version 3 2", other, older)):
        wants(tree, "answers", ls=answer)
        found = errors_of(tree, "b", "s", "update", "f", "/")
        same((len(found), found[1]), (2, "cryfs: integrity violation"), found)
        require(found[0].startswith(f"cryfs: {first}"), found)
        same(last in found[0], answer.startswith("violation ahead"), found)
        tree.run("-c", "rm -r s; cp -a good s", script="/bin/sh")
    wants(tree, "answers", ls="violation ahead-version 28 30")
    seen = seen_of(tree, "b", "s", "ls", "/")
    has(seen, f"cryfs: integrity violation\r\ncryfs: {older}")
    same(errors_of(tree, "b", "s", "ls", "/")[0].count("STATE was marked by an earlier run"), 1, "a mark of before")


def a_password_of_windows_is_named(tree):
    tree.built()
    ends(tree, 3, "configuration does not open")
    told = "cryfs: the password's line ends in `\\r`, as Windows ends lines: write its file without that byte"
    for text, is_told in (("pw\r\n", True), ("pw\r", True), ("pw\n", False), ("p\rw\n", False)):
        with open(f"{tree.top}/pw", "w", newline="") as file:
            file.write(text)
        for words in (("info",), ("update", "f", "/"), ("shell",)):
            found = errors_of(tree, "--password-file", "pw", "b", "s", *words, given=b"")
            same(found[0].startswith(told), is_told, f"{text!r} {words}: {found}")
        same(told in seen_of(tree, "--password-file", "pw", "b", "s", "info"), is_told, text)
    same(errors_of(tree, "b", "s", "rm", "-r", "/x", given=b"pw\r\n")[0].startswith(told), True, "the input's first line")


def an_import_is_told_what_goes_on(tree):
    tree.built().write("f/a", "1")
    goes_on = "`update` with the same words goes on from there"
    ends(tree, 12, "host folder fault")
    found = errors_of(tree, "b", "s", "import", "f/a", "/")[0]
    require(found.startswith("cryfs: `import` copies folders, and FOLDER is a file: `put` PATH <FILE copies one"), found)
    seen = seen_of(tree, "b", "s", "import", "f", "/")
    has(seen, "`update FOLDER PATH --leave-out` goes on")
    require("is a file" not in seen, seen)
    ends(tree, 14, "copy stopped")
    has(errors_of(tree, "b", "s", "import", "f", "/")[0], goes_on)
    require(goes_on not in errors_of(tree, "b", "s", "export", "f", "/")[0], "an export")
    for number in (signal.SIGINT, signal.SIGTERM, signal.SIGKILL):
        tree.write(f"{OUT}/cryfs", f"#!/bin/sh\nread -r line\nkill -s {number.name[3:]} $$\n", 0o755)
        seen = seen_of(tree, "b", "s", "import", "f", "/")
        has(seen, goes_on)
        require("remove what a copy left" not in seen, seen)
        require(goes_on not in seen_of(tree, "b", "s", "export", "f", "/"), "an export")


def an_update_tells_the_cause_that_fits(tree):
    modelled(tree).write("f/a", "1")
    found = errors_of(tree, "b", "s", "update", "f", "/none")
    same((len(found), found[1]), (2, "cryfs: copy refused"), found)
    require(found[0].startswith("cryfs: `import`, `put` or `update` found no directory, where the output says `no-entry`: `mkdir` /none first"), found)
    line(tree, "mkdir", "/a")
    found = errors_of(tree, "b", "s", "update", "f", "/")[0]
    require(found.startswith("cryfs: `update` met a row of another kind, where the output says `exists`"), found)
    require("mkdir" not in found, found)
    same(updated(tree, "f", "/")[2], "cryfs: copy refused\n", "without the cause")


CASES = [a_pipe_gets_a_line_of_causes, an_older_state_is_named_first, a_password_of_windows_is_named, an_import_is_told_what_goes_on,
         an_update_tells_the_cause_that_fits]
