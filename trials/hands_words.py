"""Cases of `./cryfs` in a pipe: words, folders, passwords, streams."""
import os
import pty
import re
import shutil
import signal

from hands_asking import line, modelled, wants
from hands_tree import ANSWERS, LIMIT, TOP, Terminal, has, require, same, wait_until

# A program that prints all that it is given, byte for byte.
COPIES = '#!/bin/sh\necho "words $*"\nexec cat\n'


def help_is_answered_at_once(tree):
    for word in ("--help", "-h"):
        status, out, errors = tree.run(word, with_rt=False)
        same((status, errors), (0, ""), word)
        has(out, "BLOCKS", "passwd", "--blocksize", "integrity violation", "125", "truncate PATH LENGTH", "--password-file")
    status, out, errors = tree.run(with_rt=False)
    same((status, out), (1, ""), "no words")
    has(errors, "cryfs [OPTIONS] BLOCKS STATE")
    status, out, _ = tree.run("--version", with_rt=False)
    same(status, 0, "--version")
    has(out, "cryfs (Sergunad), sources ", "isn't built of them")
    same(tree.calls(), [], "calls of rt")


def words_are_looked_at_first(tree):
    wrong = ("b", "b s", "b s lss", "b s ls\\ /", "b s info more", "b s check /", "b s shell x", "b s passwd x", "b s migrate x", "b s generate",
             "b s ls", "b s ls / x", "b s read", "b s mv /a", "b s sync x", "b s rm '/a f'", "b s rm ''", "b s write /a 0 61 62",
             "b s update", "b s update f", "b s update f x",
             "b s update --delete f /", "b s update f / --all", "b s update f / --dry-run --dry-run", "b s update --delete-all f /", "b s import f / --dry-run", "b s import f / --delete", "b s rm -r", "b s rm -r /", "b s rm -r f",
             "b s rm -r /a /b", "b s rm -r /a/", "b s generate x", "b s generate 12345678", "b s generate 1 2", "b s trial x", "b s trial generate", "b s create --size 1", "b s create 128",
             "b s import", "b s import f", "b s import f x", "b s import '' /", "b s export f / more", "b s export / f",
             "b s import f / --quiet --quiet", "b s import f / --quick", "b s import f --quiet /", "b s export f / --leave-out",
             "b s check --leave-out", "b s check --quiet --quiet", "b s put /f --quiet", "b s import --leave-out f /",
             "b s put '/a f'", "b s get '/a f'", "b s import f '/a f'", "b s import f /a/", "b s export f //", "b s put /a/../f", "b s get /./f",
             "b s look", "b s look ls", "b s look rm /a", "b s look ls /a b", "b s look ls -l /", "b s look read /a 0", "b s look check", "b s look get", "b s look get a",
             "b s import --times f", "b s import --times /", "b s import --times f / --times", "b s import f / --times --times", "b s export f --times /",
             "b s update f / --times", "b s --times import f /", "--state-copy c b s look ls /",
             "b s create --blocksize", "b s create --blocksize=x", "b s create --", "--wrong b s ls /", "--password-file",
             "--password-file f --password-command c b s info", "--password-file f b s trial", "'' s info", "b '' info")
    for built in (False, True):
        if built:
            tree.built()
        for words in wrong:
            status, out, errors = tree.run("-c", f"./cryfs {words}", script="/bin/sh")
            same((status, out, errors.count("\n")), (1, "", 1), f"{words}: {errors}")
            require(errors.startswith("cryfs: ") and "built" not in errors, f"{words}: {errors}")
    for words, hint in (("b s import --leave-out f /", "--leave-out stands behind PATH"), ("b s get '/a f'", "'/my\\x20film'"),
                        ("b s import f /a/", "no / ends it"), ("b s put f /f", "by < FILE"), ("b s get /f f", "by > FILE"),
                        ("b s rm '/a f'", "the words are rm PATH, "), ("b s write /f 0", "the words are write PATH PLACE HEX, ")):
        has(tree.run("-c", f"./cryfs {words}", script="/bin/sh")[2], hint)
    for words in ("generate 8", "trial generate 8", "check", "migrate", "ls /", "read /a 0 1", "sync", "create --blocksize 128 --scrypt-n=16",
                  "import f /", "export / /", "import --quiet /", "import f /\\x20", "import f / --quiet --leave-out",
                  "import f / --leave-out", "export / / --quiet", "check --quiet"):
        status, _, errors = tree.run("b", "s", *words.split(), given=b"pw\n")
        same((status, errors), (5, ""), words)


def hands_on_what_a_pipe_gives(tree):
    tree.built()
    for words in (["shell"], ["trial"], ["info"], ["check"], ["ls", "/"]):
        started = tree.start("b", f"{tree.top}/s", *words, cwd="/")
        out, errors = started.communicate(b"p\xff w\n\nrest", timeout=LIMIT)
        process, _, rest = out.partition(b" in /\n")
        require(process not in (b"", f"process {started.pid}".encode()), f"it runs below the wrapper: {process}")
        same(rest, f"words b {tree.top}/s {' '.join(words)}\n".encode() + b"line p\xff w\nline \npiece rest\n", "what the program got")
        same(errors, b"", "errors")


def new_passwords_are_handed_on_whole(tree):
    tree.built(COPIES)
    long = b"x" * 3000000
    for words, given, wanted in (("create --blocksize=128", b"p\xff\0 w\r\nmore", b"p\xff\0 w\r\n"), ("create", b"piece", b"piece"),
                                 ("create", b"\n", b"\n"), ("passwd", b"\nnew\nmore", b"\nnew\n"), ("passwd", b"old\n\n", b"old\n\n"),
                                 ("passwd", b"old\nnew", b"old\nnew"), ("create", long, None)):
        started = tree.start("b", "s", *words.split())
        out, errors = started.communicate(given, timeout=LIMIT)
        same((started.returncode, errors), (0, b""), words)
        first, _, rest = out.partition(b"\n")
        same(first, f"words b s {words}".encode(), "the words")
        require(rest == wanted if wanted else 1048576 < len(rest) <= len(long), f"{words}: {rest[:20]!r}")


def an_empty_input_is_no_new_password(tree):
    tree.built(COPIES)
    for words, given, part in (("create", b"", "before the password"), ("passwd", b"", "before the new password"),
                               ("passwd", b"old\n", "before the new password"), ("passwd", b"old", "before the new password")):
        status, out, errors = tree.run("b", "s", words, given=given)
        same((status, out, errors.count("\n")), (125, "", 1), f"{words} {given}")
        has(errors, part, f"echo | cryfs BLOCKS STATE {words}")
    same(tree.run("-c", "./cryfs b s create </dev/null", script="/bin/sh")[0], 125, "no input")
    same(tree.run("b", "s", "info")[:2], (0, "words b s info\n"), "opening, where the program judges")


def folders_in_each_other_are_refused(tree):
    tree.built()
    os.makedirs(f"{tree.top}/b/deep")
    shutil.copytree(f"{tree.top}/s", f"{tree.top}/b/s")
    os.symlink("b", f"{tree.top}/link")
    for blocks, state, part in (("b", "b/s", "STATE lies in BLOCKS"), ("b", "b/new/deeper", "STATE lies in BLOCKS"),
                                ("link", "b/s", "STATE lies in BLOCKS"), ("b/deep/..", f"{tree.top}/link/s", "STATE lies in BLOCKS"),
                                ("s/blocks", "s", "BLOCKS lies in STATE"), ("/", "s", "STATE lies in BLOCKS"), ("b", "b", "one folder"),
                                ("link", "b/.", "one folder"), ("new", "./new", "one folder")):
        for words in (["create"], ["ls", "/"]):
            status, out, errors = tree.run(blocks, state, *words, given=b"pw\n")
            same((status, out, errors.count("\n")), (125, "", 1), f"{blocks} {state}: {errors}")
            has(errors, part, "Name ")
    for blocks, state in (("b", "s"), ("b", "b2"), ("bb", "b")):
        same(tree.run(blocks, state, "create", given=b"pw\n")[0], 5, f"{blocks} {state}")
    same(tree.run("b", "b", "trial")[0], 5, "trial, which uses neither")


def only_create_makes_a_record(tree):
    tree.built()
    os.makedirs(f"{tree.top}/other")
    for state in ("ss", "other"):
        for words in ("info", "passwd", "migrate", "check", "shell", "ls /", "generate 8"):
            status, out, errors = tree.run("b", state, *words.split(), given=b"pw\nnew\n")
            same((status, out, errors.count("\n")), (125, "", 1), f"{state} {words}")
            has(errors, "no record", f"{tree.top}/{state}", "only create makes one")
    same((os.path.exists(f"{tree.top}/ss"), os.listdir(f"{tree.top}/other")), (False, []), "what was made")
    same(tree.run("b", "ss", "create", given=b"pw\n")[0], 5, "create")


def folders_come_from_the_environment(tree):
    tree.built().exported = {"CRYFS_BLOCKS": "b b", "CRYFS_STATE": "s"}
    has(tree.run("ls", "/", given=b"pw\n")[1], "words b b s ls /\nline pw\n")
    has(tree.run("other", "s", "ls", "/", given=b"pw\n")[1], "words other s ls /\n")
    has(tree.run("trial")[1], "words b b s trial\n")
    tree.exported = {"CRYFS_STATE": "s"}
    status, _, errors = tree.run("ls", "/")
    same(status, 1, "one of them")
    has(errors, "both or none")


def passwords_come_from_a_file(tree):
    tree.built(COPIES)
    for text, wanted in (("p w\r\nmore\n", b"p w\r\n"), ("piece", b"piece\n"), ("\n", b"\n")):
        tree.write("pw", text)
        for words, given, rest in (("info", b"lost", b""), ("create", b"", b""), ("shell", b"ls /\n\xff", b"ls /\n\xff"),
                                   ("passwd", b"new\n", b"new\n"), ("ls /", b"lost", b"")):
            for option in (["--password-file", "pw"], ["--password-file=pw"], ["--password-command", "cat pw"]):
                started = tree.start(*option, "b", "s", *words.split())
                out, errors = started.communicate(given, timeout=LIMIT)
                same((started.returncode, errors), (0, b""), words)
                same(out, f"words b s {words}\n".encode() + wanted + rest, f"{option} {words}")
    tree.write("pw", "")
    for option, part in (("--password-file=pw", "gave nothing"), ("--password-file=none", "can't be read"),
                         ("--password-file=s", "can't be read"),
                         ("--password-command=exit 3", "ended with 3"), ("--password-command=true", "gave nothing")):
        status, out, errors = tree.run(option, "b", "s", "info")
        same((status, out, errors.count("\n")), (125, "", 1), option)
        has(errors, part)
    tree.write("pw", "pw\n")
    has(tree.run("--password-file=pw", "b", "s", "passwd")[2], "before the new password")


def lines_behind_a_password_file_come_as_they_are(tree):
    tree.built(ANSWERS).write("pw", "pw\n")
    started = tree.start("--password-file=pw", "b", "s", "shell")
    started.stdin.write(b"ls /\n")
    started.stdin.flush()
    same(os.read(started.stdout.fileno(), 100)[:7], b"list 2\n", "before the input ends")
    started.stdin.write(b"die\n")
    started.stdin.flush()
    same(started.wait(LIMIT), 7, "where the program ends and the input doesn't")
    started.communicate(timeout=LIMIT)
    started = tree.start("--password-file=pw", "b", "s", "shell")
    wait_until(lambda: "password pw" in tree.got(), "it never began")
    started.send_signal(signal.SIGTERM)
    same(started.wait(LIMIT), -signal.SIGTERM, "after a signal")
    started.communicate(timeout=LIMIT)


def closed_streams_take_no_answers(tree):
    tree.built("#!/bin/sh\ntrue 3<&0 || echo no input\ntrue 3>&2 && echo errors\nexit 5\n")
    for words in ("b s trial", "b s ls /", "--help", "--version"):
        status, _, errors = tree.run("-c", f"./cryfs {words} >&-", script="/bin/sh")
        same((status, errors.count("\n")), (125, 1), f"{words}: {errors}")
        has(errors, "cryfs: standard output is closed")
    same(tree.run("-c", "./cryfs b s trial >&- 2>&-", script="/bin/sh"), (125, "", ""), "output and errors")
    same(tree.run("-c", "./cryfs b s trial 2>&-", script="/bin/sh"), (5, "errors\n", ""), "errors")
    for words in ("trial", "create", "info"):
        same(tree.run("-c", f"./cryfs b s {words} <&-", script="/bin/sh")[:2], (5, "no input\nerrors\n"), "input")
    tree.write("pw", "pw\n")
    same(tree.run("-c", "./cryfs --password-file pw b s info <&- 2>&-", script="/bin/sh")[:2], (5, "errors\n"), "a password's file")


def signals_are_those_of_the_caller(tree):
    tree.built("#!/bin/sh\nexec grep Sig[IB] /proc/self/status\n").write("pw", "pw\n")
    wanted = tree.run("-c", "sh crates/cryfs/out/cryfs", script="/bin/sh")[1]
    for words in ("b s trial", "b s create", "--password-file pw b s info", "--password-file pw b s shell"):
        same(tree.run("-c", f"./cryfs {words}", script="/bin/sh", given=b"pw\n")[1], wanted, words)


def a_terminal_that_is_not_ours_is_not_asked(tree):
    side, terminal = pty.openpty()
    # (opened by a shell that leads its session, the terminal would be its own)
    words = ["-c", '(./cryfs b s info <"$0"); exit $?', os.ttyname(terminal)]
    status, out, errors = tree.built().run(*words, script="/bin/sh")
    same((status, out, errors.count("\n")), (125, "", 1), errors)
    has(errors, "cryfs: there is no terminal to ask for the password", "--password-file")
    os.close(terminal)
    os.close(side)


def using_has_the_table_of_statuses(tree):
    page = open(f"{TOP}/docs/USING.md", encoding="utf-8").read()
    rows = [f"| {number} | {f'`{text}` ' if text else ''}| {cause} | {remedy} |" for number, text, cause, remedy in tree.status_rows()]
    same([line for line in page.splitlines() if re.match(r"\| \d+ \| (`|\|)", line)], rows, "the rows of the page")
    require(page.count("\n") <= 320, "more than 320 lines")
    help_text = " ".join(tree.run("--help")[1].split())
    for _, text, cause, remedy in tree.status_rows():
        has(help_text, text, f"{cause}: {remedy}")


def a_look_needs_no_record(tree):
    modelled(tree)
    line(tree, "mkdir", "/d")
    line(tree, "mkfile", "/d/a\\x20b")
    line(tree, "write", "/d/a\\x20b", "0", "6162")
    before = open(f"{tree.top}/s/cryfs.localstate", "rb").read()
    looks = ((("ls", "/d"), "list 1\nf a\\x20b\n"), (("read", "/d/a\\x20b", "0", "9"), "data 6162\n"), (("stat", "/no"), "error no-entry\n"))
    for state in ("s", "gone", "marked"):
        tree.write("marked/cryfs.localstate", "cryfs.localstate;2\0\1")
        for words, answer in looks:
            status, out, errors = tree.run("b", state, "look", *words, given=b"pw\n")
            same((status, out, errors), (0, answer, ""), f"{state} {words}")
    same((os.path.exists(f"{tree.top}/gone"), open(f"{tree.top}/s/cryfs.localstate", "rb").read()), (False, before), "what was made or changed")
    same(tree.run("--strict", "b", "gone", "look", "stat", "/no", given=b"pw\n")[:2], (18, "error no-entry\n"), "a script that is strict")
    tree.exported = {"CRYFS_STATE_COPY": "copy"}
    same((tree.run("b", "s", "look", "ls", "/", given=b"pw\n")[0], os.path.exists(f"{tree.top}/copy")), (0, False), "a copy of STATE")
    tree.exported = {"CRYFS_BLOCKS": "b", "CRYFS_STATE": "gone"}
    same(tree.run("look", "ls", "/", given=b"pw\n")[1], "list 1\nd d\n", "folders of the environment")
    has(tree.run("b", "gone", "ls", "/")[2], "`look ls /` shows files without it")
    same(tree.run("b", "b/s", "look", "ls", "/", given=b"pw\n")[0], 125, "STATE in BLOCKS")


def a_look_gets_a_file(tree):
    modelled(tree).write("pw", "pw\n")
    content = os.urandom((1 << 20) + 5)
    for path, given in (("/big", content), ("/whole", content[: 1 << 20]), ("/empty", b"")):
        tree.run("b", "s", "put", path, given=b"pw\n" + given)
        started = tree.start("--password-file", "pw", "b", "gone", "look", "get", path)
        out, errors = started.communicate(timeout=LIMIT)
        same((started.returncode, out == given, errors), (0, True, b""), path)
    status, out, errors = tree.run_whole("b", "gone", "look", "get", "/no", given=b"pw\n")
    same((status, out), (13, ""), errors)
    has(errors, "error no-entry\n", "found no file at PATH", "cryfs: copy refused\n")
    wants(tree, "answers", read="violation missing")
    same(tree.run("b", "gone", "look", "get", "/big", given=b"pw\n"), (5, "", "violation missing\ncryfs: integrity violation\n"), "a block that is missing")
    same(tree.run("-c", "./cryfs --password-file pw b gone look get /empty >/dev/full", script="/bin/sh")[0], 5, "before anything is written")


def a_look_is_told_to_a_person(tree):
    modelled(tree).write("pw", "pw\n")
    line(tree, "mkdir", "/Ü\\x20d")
    told, quiet = "cryfs: looked without STATE: what is shown may be old\r\n", ("--password-file", "pw", "b", "gone", "look")
    for words, wanted in ((("ls", "/"), "list 1\r\nd Ü d\r\n"), (("ls", "/Ü d"), "list 0\r\n")):
        same(Terminal(tree, *quiet, *words).end(), (0, wanted + told), words)
    wants(tree, "answers", ls="violation missing")
    status, out, errors = tree.run_whole("b", "gone", "look", "ls", "/", given=b"pw\n")
    same((status, out), (5, "violation missing\n"), errors)
    same(errors, "cryfs: `look` met a block that is missing or was changed, and marked nothing: wait until a cloud has brought all, or bring BLOCKS back\n"
         "cryfs: integrity violation\n", "its cause")


def a_copy_keeps_times_where_that_is_asked(tree):
    tree.built()
    for words, wanted in (("import --times f /", "import --times f /"), ("import f / --times", "import --times f /"),
                          ("import f / --quiet --times --leave-out", "import --times f / --quiet --leave-out"),
                          ("export --times f / --quiet", "export --times f / --quiet"), ("export f /", "export f /"),
                          ("import ./--times /", "import ./--times /")):
        out = tree.run("b", "s", *words.split(), given=b"pw\n")[1]
        same(out.splitlines()[1], f"words b s {wanted}", words)


CASES = [help_is_answered_at_once, words_are_looked_at_first, hands_on_what_a_pipe_gives, new_passwords_are_handed_on_whole,
         an_empty_input_is_no_new_password, folders_in_each_other_are_refused, only_create_makes_a_record, folders_come_from_the_environment,
         passwords_come_from_a_file, lines_behind_a_password_file_come_as_they_are, closed_streams_take_no_answers,
         a_look_needs_no_record, a_look_gets_a_file, a_look_is_told_to_a_person, a_copy_keeps_times_where_that_is_asked, signals_are_those_of_the_caller, a_terminal_that_is_not_ours_is_not_asked, using_has_the_table_of_statuses]
