"""Cases of names as people read and type them, of counts in words and of answers that a script asks to be strict about."""
import os
import random
import signal

from hands_asking import OUT, line, modelled, wants
from hands_tree import ANSWERS, PROGRAM, Terminal, has, needs, require, same

# Names, and how people read them: letters as they are, but not what doesn't show.
READ = {"Été 2026".encode(): "Été 2026", "日本語".encode(): "日本語", b"a\nb\tc": "a\\x0ab\\x09c", b"a\\b": "a\\x5cb", b"off\xff": "off\\xff",
        "turned\u202ename".encode(): "turned\\xe2\\x80\\xaename", "two\u2028lines".encode(): "two\\xe2\\x80\\xa8lines", b"end ": "end\\x20",
        b" two  in": "\\x20two  in", b"\x1b[31m": "\\x1b[31m", b"\\x20": "\\x5cx20"}
QUIET = ("--password-file", "pw", "b", "s")


def at_terminal(tree, *words, status=0, **how):
    """What is seen of a run whose password is in a file."""
    ended, seen = Terminal(tree, *words, **how).end()
    same(ended, status, seen)
    return seen


def made(tree):
    modelled(tree).write("pw", "pw\n")
    return tree


def names_go_both_ways(tree):
    import names
    for name, read in READ.items():
        same(names.readable(names.escaped(name)).decode(), read, name)
    chance = random.Random(3)
    odd = ["\\", "\\x", "\\x4", " ", "é", "\u202e", "x", "2", "0", "\n", "日", "\x7f", "/"]
    for number in range(3000):
        name = "".join(chance.choices(odd, k=6)).encode() if number % 2 else chance.randbytes(8)
        typed = names.word_of(os.fsdecode(names.readable(names.escaped(name))))
        same(names.unescaped(os.fsencode(typed)), name, "what is read, typed again")
        same(names.unescaped(names.escaped(name)), name, "what is printed")
        word = os.fsdecode(names.escaped(name))
        same(names.word_of(word), word, "a word that lines take")


def names_are_shown_as_people_read_them(tree):
    made(tree)
    import names
    for name in READ:
        same(line(tree, "mkdir", "/" + os.fsdecode(names.escaped(name))), "ok\n", name)
    exact = "".join(sorted(f"d {os.fsdecode(names.escaped(it))}\n" for it in READ))
    rows = [f"d {it}" for it in READ.values()]
    for words, is_plain in ((("ls", "/"), True), (("--names", "exact", *QUIET, "ls", "/"), False)):
        seen = at_terminal(tree, *(words if words[0] == "--names" else (*QUIET, *words)))
        found = seen.strip("\r\n").split("\r\n")
        same((found[0], sorted(found[1:])), ("list 11", sorted(rows) if is_plain else exact.splitlines()), words)
    status, out, errors = tree.run("b", "s", "ls", "/", given=b"pw\n")
    same((status, "".join(sorted(out.splitlines(keepends=True)[1:])), errors), (0, exact, ""), "a pipe")
    status, out, errors = tree.run("--names=plain", "b", "s", "ls", "/", given=b"pw\n")
    same((status, sorted(out.splitlines()[1:]), errors), (0, sorted(rows), ""), "a pipe that asks for it")
    line(tree, "symlink", "\\xc3\\x9c\\x20x", "/l")
    has(at_terminal(tree, *QUIET, "readlink", "/l"), "link Ü x\r\n")
    same(line(tree, "readlink", "/l"), "link \\xc3\\x9c\\x20x\n", "a pipe")
    tree.write("f/Ü", "1")
    os.mkdir(f"{tree.top}/f/d")
    line(tree, "mkdir", "/Ü")
    has(at_terminal(tree, *QUIET, "update", "f", "/", status=13), "error exists /Ü\r\n")


def paths_are_typed_as_people_write_them(tree):
    tree.built("#!/bin/sh\nread -r line\nprintf '%s\\n' \"words $*\" | tee \"$(dirname \"$0\")/got\"\n").write("pw", "pw\n")
    os.mkdir(f"{tree.top}/f")
    odd, word = "/Été 2026/a\\b", "/Été\\x202026/a\\x5cb"
    for words, wanted in ((("ls", odd), f"ls {word}"), (("mv", odd, "/b"), f"mv {word} /b"), (("symlink", "a b", odd), f"symlink a\\x20b {word}"),
                          (("import", "f", odd), f"import f {word}"), (("get", odd), f"get {word}"), (("write", odd, "0", "61"), f"write {word} 0 61"),
                          (("ls", word), f"ls {word}"), (("read", "/a\\x20b", "0", "1"), "read /a\\x20b 0 1")):
        at_terminal(tree, *QUIET, *words)
        same(tree.got(), f"words b s {wanted}\n", words)
        same((tree.run("--names=plain", *QUIET, *words)[0], tree.got()), (0, f"words b s {wanted}\n"), words)
    for words in (("ls", odd), ("get", odd), ("rm", "-r", odd), ("import", "f", odd)):
        status, out, errors = tree.run(*QUIET, *words)
        same((status, out), (1, ""), "a script")
        has(errors, "'/my\\x20film'", "--names=plain")
        seen = at_terminal(tree, "--names=exact", *QUIET, *words, status=1)
        has(seen, "'/my\\x20film'")
    for words in (("ls", "a"), ("stat", "/a/"), ("mv", "/a", "b"), ("mkdir", "/a/../b"), ("tree", "a"), ("ls", "-l")):
        has(at_terminal(tree, *QUIET, *words, status=1), "is no path of the file system")
    has(tree.run(*QUIET, "ls", "a")[1], "words b s ls a\n")
    for words in (("--names",), ("--names", "odd", *QUIET, "ls", "/"), ("--names=plain", "--names=plain", *QUIET, "ls", "/")):
        same(tree.run(*words)[0], 1, words)


def a_removed_path_may_have_any_name(tree):
    made(tree)
    for name in ("/a b", "/back\\slash", "/Ü"):
        has(at_terminal(tree, *QUIET, "mkdir", name), "ok\r\n")
        has(at_terminal(tree, *QUIET, "mkfile", f"{name}/x y"), "ok\r\n")
        has(at_terminal(tree, *QUIET, "rm", "-r", name), "removed 1 folder, 1 file in ")
    same(line(tree, "ls", "/"), "list 0\n", "all went")
    has(at_terminal(tree, *QUIET, "rm", "-r", "/no thing", status=13), "error no-entry /no thing\r\n")


def quotes_and_the_tab_key_work_at_the_prompt(tree):
    needs("readline")
    made(tree)
    for it in ("/Été\\x202026", "/Été\\x202026/sub\\x20dir", "/other"):
        line(tree, "mkdir", it)
    terminal = Terminal(tree, *QUIET, "shell", kind="xterm")
    terminal.expect("cryfs> ")
    for typed, wanted in (('ls "/Été 2026"\n', "list 1\r\nd sub dir\r\n"), ("ls '/Été 2026/sub dir'\n", "list 0\r\n"), ("ls /É\t\n", "list 1\r\nd sub dir\r\n"),
                          ("ls /Été\\x202026/s\t\n", "list 0\r\n"), ("mkfile '/it''s'\n", "error no-entry\r\n"), ('mkfile "/it\'s"\n', "ok\r\n"),
                          ("symlink \"q /quoted\n", "ok\r\n"), ("readlink /quo\t\n", "link \"q\r\n"), ("ls /Été 2026\n", "error bad-line\r\n")):
        terminal.send(typed)
        has(terminal.expect("cryfs> "), wanted)
    terminal.send("\4")
    same(terminal.end()[0], 0, "the end")
    tree.write(f"{OUT}/cryfs", ANSWERS, 0o755)
    terminal = Terminal(tree, "--names=exact", *QUIET, "shell")
    terminal.expect("cryfs> ")
    terminal.send('mkdir "/a b"\n')
    terminal.expect("cryfs> ")
    terminal.send("\4")
    terminal.end()
    has(tree.got(), 'line mkdir "/a b"\n')


def counts_have_words_at_a_terminal(tree):
    tree.built().write("pw", "pw\n")
    os.mkdir(f"{tree.top}/f")
    for words, printed, told in ((("import", "f", "/"), "imported 79 2995 4 105050632", "imported 79 folders, 2,995 files, 4 links, 105 MB in 0."),
                                 (("export", "f", "/"), "exported 1 1 1 1", "exported 1 folder, 1 file, 1 link, 1 byte in "),
                                 (("import", "f", "/"), "imported 0 0 0 0", "imported nothing in "),
                                 (("migrate",), "migrated 1532", "migrated 1,532 blocks in "), (("migrate",), "migrated 0", "migrated nothing: "),
                                 (("check",), "check yes 2\nblock 01 /\nblock 02 /a\\x20b", "check yes: all 2 blocks in "),
                                 (("check", "--quiet"), "check yes 2\nblock 01 /\nblock 02 /a", "check yes: all 2 blocks in ")):
        tree.write("answer", printed + "\n")
        tree.write(f"{OUT}/cryfs", f"#!/bin/sh\nread -r line\ncat {tree.top}/answer\n", 0o755)
        seen = at_terminal(tree, *QUIET, *words)
        has(seen, told)
        require("--quiet" not in words or "block 0" not in seen, seen)
        wanted = printed if "--quiet" not in words else "check yes 2"
        same(tree.run(*QUIET, *words), (0, wanted + "\n", ""), "a pipe")
    tree.write("answer", "imported 0 1 0 3\n")
    seen = at_terminal(tree, "-c", "./cryfs --password-file pw b s put '/a b' <answer", script="/bin/sh")
    has(seen, "imported 1 file, 3 bytes in ")


def a_short_check_tells_what_is_wrong(tree):
    tree.built().write("pw", "pw\n")
    wrong = "violation missing\nblock 02 /a violation missing\nblock 03 ? fault\nrefused 1\nfailed 1\n"
    for text, wanted in ((wrong, wrong), ("check yes 1\nblock 01 /\nstranger x\\x20y\n", "check yes 1\nstranger x\\x20y\n")):
        tree.write("answer", text)
        tree.write(f"{OUT}/cryfs", f"#!/bin/sh\nread -r line\ncat {tree.top}/answer\n", 0o755)
        for words in (("check", "--quiet"), ("check", "--all", "--quiet")):
            same(tree.run(*QUIET, *words), (0, wanted, ""), words)
    same(tree.run("-c", "./cryfs --password-file pw b s check --quiet >/dev/full", script="/bin/sh"), (9, "", "cryfs: output fault\n"), "a full disk")


def a_strict_script_gets_a_status(tree):
    made(tree)
    tree.write("pw", "pw\n")
    same(tree.run(*QUIET, "ls", "/none"), (0, "error no-entry\n", ""), "without")
    text = (18, "error no-entry\n", "cryfs: error answered\n")
    same(tree.run("--strict", *QUIET, "ls", "/none"), text, "an error")
    same(tree.run("--strict", *QUIET, "ls", "/"), (0, "list 0\n", ""), "a reply")
    tree.exported = {"CRYFS_STRICT": "1"}
    same(tree.run(*QUIET, "rm", "/none"), text, "by the environment")
    for answer in ("fault directory", "memory", "spent"):
        wants(tree, "answers", sync=answer)
        same(tree.run(*QUIET, "sync"), (18, f"{answer}\n", "cryfs: error answered\n"), answer)
    wants(tree, "answers", sync="violation missing")
    same(tree.run(*QUIET, "sync"), (5, "violation missing\n", "cryfs: integrity violation\n"), "the program's own status")
    same(tree.run("--strict=1", *QUIET, "sync")[0], 1, "a word too much")


def a_session_isnt_strict(tree):
    made(tree)
    same(tree.run("--strict", *QUIET, "shell", given=b"ls /none\nls /\n"), (0, "error no-entry\nlist 0\n", ""), "a session")
    same(tree.run("-c", "./cryfs --strict --password-file pw b s ls / >/dev/full", script="/bin/sh"), (9, "", "cryfs: output fault\n"), "a full disk")
    same(tree.run("-c", "./cryfs --names=plain --password-file pw b s shell </dev/null", script="/bin/sh"), (0, "", ""), "no lines")
    tree.write(f"{OUT}/cryfs", "#!/bin/sh\nread -r line\necho 'violation missing'\nkill -s KILL $$\n", 0o755)
    same(tree.run("--strict", *QUIET, "ls", "/")[:2], (-signal.SIGKILL, "violation missing\n"), "one that is killed")


def the_password_comes_from_the_environment(tree):
    tree.built(PROGRAM.replace("exit 5", "exit 0")).write("pw", "from a file\n")
    tree.write("other", "another\n")
    tree.exported = {"CRYFS_PASSWORD_FILE": "pw"}
    for words, given, wanted in ((("info",), b"lost\n", "line from a file\n"), (("shell",), b"ls /\n", "line from a file\nline ls /\n"),
                                 (("passwd",), b"new\n", "line from a file\nline new\n")):
        out = tree.run("b", "s", *words, given=given)[1]
        same(out.partition("\n")[2], f"words b s {words[0]}\n{wanted}", words)
    has(tree.run("--password-file=other", "b", "s", "info")[1], "line another\n")
    has(tree.run("--password-command=echo said", "b", "s", "info")[1], "line said\n")
    same(tree.run("b", "s", "trial", given=b"ls /\n")[0], 0, "what takes no password")
    tree.exported = {"CRYFS_PASSWORD_FILE": "none"}
    status, _, errors = tree.run("b", "s", "info")
    same((status, errors), (125, "cryfs: the password's file none can't be read: No such file or directory\n"), "a file that isn't there")


def answers_pass_on_as_they_come(tree):
    tree.built("#!/bin/sh\nread -r line\necho 'list 2'\nread -r line <on\nprintf 'd a\\\\x20b\\nd '\nread -r line <on\necho c\necho wrong >&2\nexit 3\n")
    tree.write("pw", "pw\n")
    os.mkfifo(f"{tree.top}/on")
    terminal = Terminal(tree, *QUIET, "ls", "/")
    terminal.expect("list 2\r\n")
    tree.write("on", "\n")
    terminal.expect("d a b\r\n")
    tree.write("on", "\n")
    status, seen = terminal.end()
    same((status, seen), (3, "d c\r\nwrong\r\n"), "what is seen")
    tree.write(f"{OUT}/cryfs", "#!/bin/sh\nread -r line\nprintf 'ok\\nhalf \\\\x20'\n", 0o755)
    same(at_terminal(tree, *QUIET, "ls", "/"), "ok\r\nhalf \\x20", "a line without its end")


CASES = [names_go_both_ways, names_are_shown_as_people_read_them, paths_are_typed_as_people_write_them, a_removed_path_may_have_any_name,
         quotes_and_the_tab_key_work_at_the_prompt, counts_have_words_at_a_terminal, a_short_check_tells_what_is_wrong, a_strict_script_gets_a_status,
         a_session_isnt_strict, the_password_comes_from_the_environment, answers_pass_on_as_they_come]
