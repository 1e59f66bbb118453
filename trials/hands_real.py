"""Cases of `./cryfs` over the program that was built in this checkout."""
import os
import re
import shutil
import signal
from types import SimpleNamespace

import kill_migrate
from hands_tree import LIMIT, Terminal, has, require, same, wait_until

PROMPT = "cryfs> "
# A cheap key, so that a busy machine isn't kept.
CHEAP = ("--scrypt-n", "16")


def made(tree):
    """A file system in `b` and `s` under the password `pw`, which is in a file too."""
    tree.real().write("pw", "pw\n")
    status, out, errors = tree.run("b", "s", "create", *CHEAP, given=b"pw\n")
    same((status, out[:8], errors), (0, "created ", ""), "create")
    return tree


def asks(tree, *words, password="pw", **how):
    terminal = Terminal(tree, "b", "s", *words, **how)
    terminal.answer("Password: ", password)
    return terminal


def line(tree, *words):
    """The answer of a run of one line."""
    status, out, errors = tree.run("b", "s", *words, given=b"pw\n")
    same((status, errors), (0, ""), words)
    return out


def a_first_session_is_that_of_the_readme(tree):
    tree.real()
    terminal = Terminal(tree, "b", "s", "create")
    terminal.answer("Password: ", "pw")
    terminal.answer("Password again: ", "pw")
    status, seen = terminal.end()
    same(status, 0, seen)
    has(seen, "created ", "Without STATE nothing opens")
    terminal = asks(tree, "shell")
    terminal.expect(PROMPT)
    for typed, wanted in (("mkdir /a", "ok\r\n"), ("mkfile /a/f", "ok\r\n"), ("write /a/f 0 6162", "ok\r\n"), ("ls /a", "list 1\r\nf f\r\n"),
                          ("ls", "error bad-line\r\n")):
        terminal.send(typed + "\n")
        same(terminal.expect(PROMPT), f"{typed}\r\n{wanted}", "what is seen")
    terminal.send("exit\n")
    same(terminal.end()[0], 0, "the end")
    tree.write("password", "pw\n")
    same(tree.run("-c", "./cryfs b s read /a/f 0 10 <password", script="/bin/sh"), (0, "data 6162\n", ""), "in a pipe")


def a_wrong_password_is_explained(tree):
    made(tree)
    for words in ("shell", "info"):
        status, seen = asks(tree, words, password="pv").end()
        same(status, 3, words)
        has(seen, "cryfs: configuration does not open\r\n", "the password is another one: give the right password")
        require(PROMPT not in seen, seen)
    same(tree.run("b", "s", "info", given=b"pv\n"), (3, "", "cryfs: configuration does not open\n"), "in a pipe")


def a_second_run_is_explained(tree):
    made(tree)
    shutil.copytree(f"{tree.top}/s", f"{tree.top}/s2")
    terminal = asks(tree, "shell")
    terminal.expect(PROMPT)
    status, seen = asks(tree, "ls", "/").end()
    same(status, 7, "with the same STATE")
    has(seen, "cryfs: local state fault\r\ncryfs: another run uses STATE: wait until it ends\r\n")
    second = Terminal(tree, "b", "s2", "ls", "/")
    second.answer("Password: ", "pw")
    status, seen = second.end()
    same(status, 6, "with another STATE")
    has(seen, "cryfs: block directory fault\r\ncryfs: another run uses BLOCKS: wait until it ends\r\n")
    terminal.send("\4")
    same(terminal.end()[0], 0, "the first run")


def a_rollback_is_noticed_and_the_way_back_works(tree):
    made(tree)
    line(tree, "mkdir", "/a")
    shutil.copytree(f"{tree.top}/b", f"{tree.top}/old")
    line(tree, "mkdir", "/b")
    script = "rm -rf state.copy; cp -a s/. state.copy; mv b new; cp -a old b"
    same(tree.run("-c", script, script="/bin/sh")[0], 0, script)
    status, seen = asks(tree, "ls", "/").end()
    same(status, 5, "over old blocks")
    has(seen, "violation old-version ", "integrity violation", "don't trust BLOCKS", '"The alarm" in USING.md')
    require("earlier run" not in seen and "isn't marked" not in seen, f"causes of another mark: {seen}")
    same(tree.run("-c", "rm -r b; mv new b", script="/bin/sh")[0], 0, "what was last written is there again")
    status, seen = asks(tree, "ls", "/").end()
    same(status, 5, "over a marked record")
    has(seen, 'cryfs: integrity violation\r\ncryfs: STATE was marked by an earlier run: see "The alarm" in USING.md\r\n')
    require("cryfs: or " not in seen, f"one cause alone: {seen}")
    same(tree.run("-c", "rm -r s; cp -a state.copy s", script="/bin/sh")[0], 0, "the copy is put back")
    same(line(tree, "ls", "/"), "list 2\nd a\nd b\n", "the way back")
    line(tree, "mkdir", "/c")
    same(tree.run("-c", "rm -r s; cp -a state.copy s", script="/bin/sh")[0], 0, "an older copy")
    status, out, _ = tree.run("b", "s", "ls", "/", given=b"pw\n")
    same((status, out[:24]), (5, "violation ahead-version "), "with an older copy")


def an_interrupt_keeps_what_was_answered(tree):
    made(tree)
    for number in (signal.SIGINT, signal.SIGTERM, signal.SIGHUP):
        terminal = asks(tree, "shell")
        terminal.expect(PROMPT)
        terminal.send(f"mkdir /d{number}\n")
        terminal.expect("ok\r\n")
        terminal.expect(PROMPT)
        if number == signal.SIGINT:
            terminal.send("half\3")
        else:
            os.kill(terminal.pid, number)
        status, seen = terminal.end()
        same(status, 0, f"signal {number}: {seen}")
        has(line(tree, "ls", "/"), f"d d{int(number)}\n")


def a_long_line_is_whole_or_refused(tree):
    made(tree)
    digits = "61" * 3000
    terminal = asks(tree, "shell")
    terminal.expect(PROMPT)
    for typed, wanted in (("mkfile /f", "ok"), (f"write /f 0 {digits}", "a terminal cuts lines"), (f"write /f 0 {digits[:4000]}", "ok")):
        terminal.send(typed + "\n")
        terminal.expect(wanted)
        terminal.expect(PROMPT)
    terminal.send("\4")
    same(terminal.end()[0], 0, "the session")
    same(line(tree, "stat", "/f").split()[5], "2000", "the length of what was written")
    same(tree.run("--password-file=pw", "b", "s", "shell", given=f"write /f 0 {digits}\n".encode()), (0, "ok\n", ""), "in a pipe")
    same(line(tree, "stat", "/f").split()[5], "3000", "the length of what was written")


def passwords_change(tree):
    made(tree)
    same(tree.run("b", "s", "passwd", given=b"pw\n")[0], 125, "without a new one")
    same(tree.run("b", "s", "info", given=b"pw\n")[0], 0, "the old one still opens")
    same(tree.run("b", "s", "passwd", given=b"pw\nnew\n")[:2], (0, "changed\n"), "a new one")
    same([tree.run("b", "s", "info", given=it)[0] for it in (b"pw\n", b"new\n")], [3, 0], "the old and the new one")
    tree.write("new", "new\n")
    terminal = Terminal(tree, "--password-command", "cat new", "b", "s", "passwd")
    terminal.answer("New password: ", "third")
    terminal.answer("New password again: ", "third")
    same(terminal.end()[0], 0, "at a terminal")
    same(tree.run("b", "s", "info", given=b"third\n")[0], 0, "the third one")
    same(tree.run("b", "s", "migrate", given=b"third\n"), (0, "migrated 0\n", ""), "its blocks are new")
    same(tree.run("b2", "s2", "create", *CHEAP, given=b"\n")[0], 0, "an empty one on purpose")
    same(tree.run("b2", "s2", "info", given=b"\n")[0], 0, "an empty one on purpose")


def info_tells_whether_to_migrate(tree):
    made(tree)
    status, seen = asks(tree, "info").end()
    same(status, 0, seen)
    has(seen, "blocksize 16384\r\n", "migrate has nothing to do")
    kill_migrate.lay_out(SimpleNamespace(blocks=f"{tree.top}/b", state=f"{tree.top}/s"))
    # (opening over what waits saves a record of the new form, which takes old files still)
    for words, wanted in (("info", "format 1, of an older version, are still taken"), ("check", "check yes: all "), ("info", "are still taken"),
                          ("migrate", "migrated "), ("info", "migrate has nothing to do"), ("migrate", "migrated nothing")):
        status, seen = asks(tree, words).end()
        same(status, 0, seen)
        has(seen, wanted)


def an_output_that_fails_is_told(tree):
    made(tree)
    for words in ("shell", "ls /"):
        same(tree.run("-c", f"printf 'pw\\nls /\\n' | ./cryfs b s {words} >/dev/full", script="/bin/sh"), (9, "", "cryfs: output fault\n"), words)
    with open("/dev/full", "w") as into:
        terminal = asks(tree, "shell", into=into.fileno())
        terminal.expect(PROMPT)
        terminal.send("ls /\n")
        status, seen = terminal.end()
    same(status, 9, "at a terminal")
    has(seen, "cryfs: output fault\r\n", "its disk is full: run again")


def a_mistyped_folder_is_left(tree):
    made(tree)
    for words in (["info"], ["shell"], ["mkdir", "/x"]):
        same(tree.run("b", "t", *words, given=b"pw\n")[0], 125, words)
    status, out, errors = tree.run("c", "s", "ls", "/", given=b"pw\n")
    same((status, out, errors), (3, "", "cryfs: no configuration\n"), "another BLOCKS")
    same([os.path.exists(f"{tree.top}/{it}") for it in ("t", "c")], [False, False], "what was made")
    same(line(tree, "ls", "/"), "list 0\n", "the file system")


def shell_blocks(page, heading):
    """The indented lines of each example below a heading of the page."""
    section = page.partition(f"## {heading}\n")[2].partition("\n## ")[0]
    return [re.sub("^    ", "", it, flags=re.M) for it in re.findall(r"(?:^    .*\n)+", section, re.M)]


def examples_of_the_page_work(tree):
    made(tree)
    page = tree.read("docs/USING.md")
    examples = [it.replace("blocks state", "b s") for it in shell_blocks(page, "Files in and out")]
    os.mkdir(f"{tree.top}/photos")
    for name, size in (("photo.jpg", 300000), ("film", 1200001)):
        with open(f"{tree.top}/photos/{name}", "wb") as file:
            file.write(os.urandom(size))
    same(len(examples), 3, "how many examples")
    wanted = "imported 0 2 0 1500001\nexported 0 2 0 1500001\n"
    same(tree.run("-ec", examples[0], script="/bin/sh"), (0, wanted, ""), examples[0])
    tree.write("photos/text", "abc")
    wanted = "updated 0 1 0 3\nupdated 0 0 0 0\nremoved 0 0 0\n"
    same(tree.run("-ec", examples.pop(1), script="/bin/sh"), (0, wanted, ""), "an update")
    shutil.copy2(f"{tree.top}/photos/photo.jpg", f"{tree.top}/photo.jpg")
    status, out, errors = tree.run("-ec", examples[1], script="/bin/sh")
    same((status, out, errors), (0, "imported 0 1 0 300000\n", ""), examples[1])
    same(line(tree, "stat", "/film").split()[5], "1200001", "the length of the larger file")
    scripts = [it.replace("blocks state", "b s") for it in shell_blocks(page, "Scripts")]
    for it, told in ((scripts[0], "there\n"), (scripts[0].replace("/film", "/none"), "")):
        same(tree.run("-c", it, script="/bin/sh")[:2], (0, told), it)
    for path in ("/2026", "/2026/empty", "/2026/empty/a\\x20b", "/20261"):
        line(tree, "mkdir", path)
    same(tree.run("--password-file=pw", "b", "s", "import", "photos", "/2026")[0], 0, "a tree to remove")
    same(tree.run("--password-file=pw", "b", "s", "rm", "-r", "/2026"), (0, "removed 3 3 0\n", ""), "a tree that is removed")
    same(line(tree, "ls", "/"), "list 5\nd 20261\nf film\nf photo\nf photo.jpg\nf text\n", "what is left")


def what_needs_no_lost_block_comes_out(tree):
    made(tree)
    for folder in ("f/one", "f/two"):
        os.makedirs(f"{tree.top}/{folder}")
        with open(f"{tree.top}/{folder}/file", "wb") as file:
            file.write(os.urandom(100000))
    same(tree.run("--password-file=pw", "b", "s", "import", "f", "/")[0], 0, "an import")
    found = tree.run("--password-file=pw", "b", "s", "check")[1].split("\n")
    lost = next(it.split()[1] for it in found if it.endswith(" /one/file"))
    os.remove(f"{tree.top}/b/{lost[:3]}/{lost[3:]}")
    shutil.copytree(f"{tree.top}/s", f"{tree.top}/state.copy")
    for path, wanted in (("/", 5), ("/two", 5), (None, 0), ("/two", 0), ("/one", 5)):
        if path is None:
            same(tree.run("-c", "mv s state.marked; cp -a state.copy s", script="/bin/sh")[0], 0, "the copy is put back")
            continue
        shutil.rmtree(f"{tree.top}/g", ignore_errors=True)
        os.mkdir(f"{tree.top}/g")
        same(tree.run("--password-file=pw", "b", "s", "export", "g", path)[0], wanted, path)
        if wanted == 0:
            with open(f"{tree.top}/g/file", "rb") as file, open(f"{tree.top}/f/two/file", "rb") as first:
                same(file.read() == first.read(), True, "the bytes of what needs no lost block")


def a_run_that_waits_for_its_input_can_be_stopped(tree):
    made(tree)
    started = tree.start("--password-file=pw", "b", "s", "shell")
    started.stdin.write(b"mkdir /a\n")
    started.stdin.flush()
    same(os.read(started.stdout.fileno(), 10), b"ok\n", "the first answer")
    started.send_signal(signal.SIGTERM)
    same(started.wait(LIMIT), -signal.SIGTERM, "after a signal")
    started.communicate(timeout=LIMIT)
    wait_until(lambda: tree.run("b", "s", "ls", "/", given=b"pw\n")[0] == 0, "the lock stays")


CASES = [a_first_session_is_that_of_the_readme, a_wrong_password_is_explained, a_second_run_is_explained,
         a_rollback_is_noticed_and_the_way_back_works, an_interrupt_keeps_what_was_answered, a_long_line_is_whole_or_refused,
         passwords_change, info_tells_whether_to_migrate, an_output_that_fails_is_told, a_mistyped_folder_is_left, examples_of_the_page_work,
         what_needs_no_lost_block_comes_out, a_run_that_waits_for_its_input_can_be_stopped]
