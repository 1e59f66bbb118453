"""Cases of `./cryfs` at a terminal: prompts, lines, interrupts, and what a status means."""
import fcntl
import os
import signal
import time

from hands_tree import ANSWERS, Terminal, has, needs, require, same, wait_until

# The line of a terminal that follows what is typed.
PROMPT = "cryfs> "


def create_asks_twice(tree):
    terminal = Terminal(tree.built(), "b", "new", "create")
    terminal.answer("Password: ", "top secret")
    terminal.answer("Password again: ", "top secret")
    status, seen = terminal.end()
    same(status, 5, "the program's status")
    same(seen.count("top secret"), 1, "how often the password is seen")
    has(seen, "line top secret")


def create_tells_what_the_record_means(tree):
    tree.built("#!/bin/sh\nread -r line\necho 'created 00'\n")
    terminal = Terminal(tree, "b", "new", "create")
    terminal.answer("Password: ", "pw")
    terminal.answer("Password again: ", "pw")
    status, seen = terminal.end()
    same(status, 0, "the program's status")
    has(seen, "created 00\r\n", "Without STATE nothing opens", "Copy it after each run that writes", "an older copy doesn't open")
    same(tree.run("b", "new", "create", given=b"pw\n"), (0, "created 00\n", ""), "in a pipe")


def passwd_asks_for_old_and_new(tree):
    terminal = Terminal(tree.built(), "b", "s", "passwd")
    terminal.answer("Password: ", "old one")
    terminal.answer("New password: ", "new one")
    terminal.answer("New password again: ", "new one")
    status, seen = terminal.end()
    same(status, 5, "the program's status")
    has(seen, "line old one\r\nline new one\r\n")
    tree.write("pw", "old one\n")
    terminal = Terminal(tree, "--password-file", "pw", "b", "s", "passwd")
    terminal.answer("New password: ", "new one")
    terminal.answer("New password again: ", "new one")
    has(terminal.end()[1], "line old one\r\nline new one\r\n")


def commands_ask_once(tree):
    tree.built()
    for words in (["info"], ["ls", "/"], ["read", "/a", "0", "1"], ["generate", "8"], ["sync"]):
        terminal = Terminal(tree, "b", "s", *words)
        terminal.answer("Password: ", r" a \x20'$( ")
        status, seen = terminal.end()
        same(status, 5, "the program's status")
        has(seen, r"line  a \x20'$( ")


def nothing_is_asked_where_the_call_is_refused(tree):
    for built in (False, True):
        if built:
            tree.built()
        for words in (["b", "ss", "info"], ["s", "s", "create"], ["b", "s", "lss"], ["b", "s", "create", "--size", "1"]):
            status, seen = Terminal(tree, *words).end()
            require(status in (1, 125) and "assword" not in seen, f"{words}: {seen}")


def wrong_typing_is_refused(tree):
    tree.built()
    terminal = Terminal(tree, "b", "new", "create")
    terminal.answer("Password: ", "one")
    terminal.answer("Password again: ", "two")
    status, seen = terminal.end()
    same(status, 125, "two passwords")
    has(seen, "two different")
    for typed in ("", "\4"):
        for words in ("info", "create", "passwd"):
            terminal = Terminal(tree, "b", "s", words)
            terminal.answer("Password: ", typed)
            status, seen = terminal.end()
            same(status, 125, "an empty password")
            has(seen, "an empty password is refused", "echo | cryfs")
            require("words" not in seen, "the program was run")
    terminal = Terminal(tree, "b", "s", "info")
    terminal.answer("Password: ", "x" * 5000)
    status, seen = terminal.end()
    same(status, 125, "a password that the terminal cut")
    has(seen, "a terminal cuts lines", "--password-file")


def passwords_stay_out_of_the_environment(tree):
    tree.built("#!/bin/sh\nenv\ncat >/dev/null\nexit 5\n")
    terminal = Terminal(tree, "b", "s", "passwd")
    terminal.answer("Password: ", "old one")
    terminal.answer("New password: ", "new one")
    terminal.answer("New password again: ", "new one")
    status, seen = terminal.end()
    same(status, 5, "the program's status")
    has(seen, "PATH=")
    require(not any(it in seen for it in ("old one", "new one")), seen)


def shell(tree, *words, password="pw", **how):
    """A session at its first prompt."""
    terminal = Terminal(tree, "b", "s", "shell", *words, **how)
    terminal.answer("Password: ", password)
    terminal.expect(PROMPT)
    return terminal


def shell_answers_each_line_as_it_comes(tree):
    terminal = shell(tree.built(ANSWERS))
    for line, wanted in (("mkdir /a", "answer 8\r\n"), ("ls /", "list 2\r\nf a\r\nf b\r\n"), ("sync", "answer 4\r\n")):
        require(terminal.shows(), "lines aren't shown")
        terminal.send(line + "\n")
        same(terminal.expect(PROMPT), f"{line}\r\n{wanted}", "what is seen")
    terminal.send("\4")
    status, seen = terminal.end()
    same((status, tree.got()), (0, "words b s shell\npassword pw\nline \nline mkdir /a\nline ls /\nline sync\nclosed\n"), seen)


def shell_tells_how_to_use_it(tree):
    tree.built(ANSWERS)
    terminal = Terminal(tree, "b", "s", "shell")
    terminal.answer("Password: ", "pw")
    has(terminal.expect(PROMPT), "help shows them", "exit or Ctrl-D ends", "is kept by sync and at the end")
    for line in ("help", " help "):
        terminal.send(line + "\n")
        has(terminal.expect(PROMPT), "truncate PATH LENGTH", "\\x20 stands for a space")
    terminal.send("\n")
    same(terminal.expect(PROMPT), "\r\n", "after an empty line")
    terminal.send("exit\n")
    status, _ = terminal.end()
    same((status, tree.got()), (0, "words b s shell\npassword pw\nline \nclosed\n"), "what the program got")


def shell_edits_lines_and_has_a_history(tree):
    needs("readline")
    tree.built(ANSWERS)
    terminal = Terminal(tree, "b", "s", "shell", kind="xterm")
    terminal.answer("Password: ", "pw")
    terminal.expect(PROMPT)
    for typed, wanted in (("mkdir /\xfc", "answer 9"), ("\x1b[A", "answer 9"), ("two\x1b[D\x1b[D!", "answer 4"), ("x" * 4093, "answer 4093"),
                          ("x" * 4094, "a terminal cuts lines")):
        terminal.send(typed + "\n")
        terminal.expect(wanted)
        terminal.expect(PROMPT)
    terminal.send("one\ntwo words\nls /\n")
    for wanted in ("answer 3\r\n", "answer 9\r\n", "f b\r\n"):
        terminal.expect(wanted)
    terminal.expect(PROMPT)
    require("pw" not in terminal.seen, "the password is in the history")
    terminal.send("half\3")
    same(terminal.end()[0], 0, "after an interrupt")
    has(tree.got(), "line mkdir /ü\nline mkdir /ü\nline t!wo\n", "line one\nline two words\nline ls /\nclosed\n")
    same([it for it in os.listdir(tree.top) if "history" in it], [], "what is kept")


def shell_keeps_prompts_out_of_answers(tree):
    tree.built(ANSWERS)
    with open(f"{tree.top}/answers", "w") as into:
        terminal = shell(tree, into=into.fileno())
    terminal.send("ls /\n")
    terminal.expect(PROMPT)
    terminal.send("\4")
    same((terminal.end()[0], tree.read("answers")), (0, "list 2\nf a\nf b\n"), "the file of answers")


def shell_tells_of_an_output_that_fails(tree):
    needs("/dev/full")
    tree.built(ANSWERS)
    with open("/dev/full", "w") as into:
        terminal = shell(tree, into=into.fileno())
    terminal.send("ls /\n")
    status, seen = terminal.end()
    same(status, 9, "over a full disk")
    has(seen, "cryfs: output fault\r\n", "its disk is full: run again")


def lines_that_a_terminal_cut_are_refused(tree):
    terminal = shell(tree.built(ANSWERS))
    for length, taken in ((4093, True), (4094, False), (4095, False), (6000, False)):
        terminal.send("x" * length + "\n")
        seen = terminal.expect(PROMPT)
        require((f"answer {length}" in seen, "a terminal cuts lines" in seen) == (taken, not taken), f"{length}: {seen[-200:]}")
    terminal.send("\4")
    same(terminal.end()[0], 0, "the program's status")
    same([len(it) - 5 for it in tree.got().splitlines() if it.startswith("line ")], [0, 4093], "lengths of lines")


def an_interrupt_ends_the_input(tree):
    tree.built(ANSWERS)
    for line in ("", "half a li", "slow\n"):
        terminal = shell(tree)
        terminal.send("mkdir /a\n")
        terminal.expect(PROMPT)
        terminal.send(line)
        time.sleep(0.3)
        terminal.send("\3")
        status, seen = terminal.end()
        same(status, 0, f"after an interrupt: {seen}")
        has(seen, "closing; a second interrupt stops it")
        has(tree.got(), "line mkdir /a\n", "closed\n")
        require("half" not in tree.got(), "half a line was given on")
        require(not line.startswith("slow") or "ok\r\n" in seen, "the answer that was under way")


def an_interrupt_while_it_opens_ends_the_input(tree):
    tree.built(ANSWERS.replace("while IFS=", "sleep 1\nwhile IFS="))
    terminal = Terminal(tree, "b", "s", "shell")
    terminal.answer("Password: ", "pw")
    wait_until(lambda: "password" in tree.got(), "it never began")
    terminal.send("\3")
    status, _ = terminal.end()
    same(status, 0, "after an interrupt")
    has(tree.got(), "closed\n")


def a_stop_gives_the_terminal_back(tree):
    needs("readline", "/bin/bash")
    tree.built(ANSWERS)
    for kind in ("dumb", "xterm"):
        terminal = Terminal(tree, "--norc", "-i", kind=kind, script="/bin/bash")
        terminal.send("PS1='ready '; bind 'set enable-bracketed-paste off'; ./cryfs b s shell\n")
        terminal.answer("Password: ", "pw")
        terminal.expect(PROMPT)
        terminal.send("mkdir")
        time.sleep(0.3)
        terminal.send("\x1a")
        terminal.expect("Stopped")
        terminal.expect("ready ")
        terminal.send("echo in b''etween\n")
        terminal.expect("in between\r\n")
        terminal.send("fg\n")
        terminal.expect("./cryfs b s shell\r\n")
        terminal.send((" /a" if kind == "xterm" else "mkdir /a") + "\n")
        terminal.expect("answer 8\r\n")
        terminal.expect(PROMPT)
        require(terminal.shows() == (kind == "dumb"), "how the terminal is left")
        terminal.send("exit\n")
        terminal.expect("ready ")
        terminal.send("exit\n")
        terminal.end()
        has(tree.got(), "line mkdir /a\nclosed\n")


def a_second_interrupt_stops(tree):
    terminal = shell(tree.built(ANSWERS.replace("sleep 0.2", "sleep 30")))
    terminal.send("\3")
    terminal.expect("a second interrupt stops it")
    time.sleep(0.2)
    terminal.send("\3")
    same(terminal.end()[0], -signal.SIGINT, "after a second interrupt")
    require("closed" not in tree.got(), "it was closed")


def other_signals_close_the_session_too(tree):
    tree.built(ANSWERS)
    for number in (signal.SIGTERM, signal.SIGHUP):
        terminal = shell(tree)
        os.kill(terminal.pid, number)
        same(terminal.end()[0], 0, f"after signal {number}")
        has(tree.got(), "closed\n")


def shell_ends_with_the_program(tree):
    tree.built(ANSWERS)
    terminal = Terminal(tree, "b", "s", "shell", "early")
    same(terminal.end()[0], 1, "words that aren't known")
    tree.write("crates/cryfs/out/cryfs", ANSWERS.replace("case $4 in early", "case early in early"), 0o755)
    terminal = Terminal(tree, "b", "s", "shell")
    terminal.answer("Password: ", "pw")
    status, seen = terminal.end()
    same(status, 3, "where it doesn't open")
    has(seen, "cryfs: configuration does not open\r\n", "the password is another one")
    require(PROMPT not in seen and "help shows" not in seen, seen)
    tree.write("crates/cryfs/out/cryfs", ANSWERS, 0o755)
    terminal = shell(tree)
    terminal.send("die\n")
    same(terminal.end()[0], 7, "where it ends at a line")


def shell_takes_its_password_from_elsewhere(tree):
    tree.built(ANSWERS).write("pw", "from a file\n")
    for option in ("--password-file=pw", "--password-command=cat pw"):
        terminal = Terminal(tree, option, "b", "s", "shell")
        terminal.expect(PROMPT)
        terminal.send("ls /\n")
        has(terminal.expect(PROMPT), "f b\r\n")
        terminal.send("\4")
        same(terminal.end()[0], 0, option)
        has(tree.got(), "password from a file\nline \nline ls /\n")


def trial_asks_nothing(tree):
    terminal = Terminal(tree.built(ANSWERS), "b", "s", "trial")
    has(terminal.expect(PROMPT), "nothing is kept")
    require(terminal.shows(), "lines aren't shown")
    terminal.send("ls /\n")
    terminal.expect(PROMPT)
    terminal.send("\4")
    status, seen = terminal.end()
    same((status, tree.got()), (0, "words b s trial\nline ls /\nclosed\n"), "what the program got")
    require("assword" not in seen, "it asked")


def a_status_is_explained(tree):
    tree.built()
    rows = tree.status_rows()
    for number, text in sorted({row[:2] for row in rows if row[1]}):
        tree.write("crates/cryfs/out/cryfs", f"#!/bin/sh\nread -r line\necho 'cryfs: {text}' >&2\nexit {number}\n", 0o755)
        for words in ("info", "passwd"):
            terminal = Terminal(tree, "b", "s", words)
            terminal.answer("Password: ", "pw")
            if words == "passwd":
                terminal.answer("New password: ", "pw")
                terminal.answer("New password again: ", "pw")
            status, seen = terminal.end()
            wanted = [f"{row[2]}: {row[3]}" for row in rows if row[:2] == (number, text) and "ends in" not in row[2] and
                      "FOLDER isn't there" not in row[2] and not row[2].startswith(("`ls`", "`look`", "`export`", "`create`", "`check`", "`import`", "`put`", "`get`", "`migrate`", "`update`", "`rm`", "`passwd`" if words == "info" else "none"))]
            wanted = [f"cryfs: {'or ' if it else ''}{line}" for it, line in enumerate(wanted)]
            same((status, seen.strip().split("\r\n")), (int(number), [f"cryfs: {text}", *wanted]), "what is seen")
        same(tree.run("b", "s", "info", given=b"pw\n"), (int(number), "", f"cryfs: {text}\n"), "in a pipe")
    tree.write("crates/cryfs/out/cryfs", "#!/bin/sh\nexit 0\n", 0o755)
    terminal = Terminal(tree, "b", "s", "info")
    terminal.answer("Password: ", "pw")
    same((terminal.end()), (0, "\r\n"), "status 0")


def asks_once(tree, words, status):
    """What is seen behind the password in a run of these words, which ends so."""
    terminal = Terminal(tree, "b", "s", words)
    terminal.answer("Password: ", "pw")
    found, seen = terminal.end()
    same(found, status, seen)
    return seen


def a_stop_is_explained(tree):
    tree.built()
    for number, cause in ((signal.SIGINT, "Ctrl-C stopped it"), (signal.SIGKILL, "`kill -9` stopped it"), (signal.SIGTERM, "stopped by `kill`")):
        tree.write("crates/cryfs/out/cryfs", f"#!/bin/sh\nread -r line\nkill -s {number.name[3:]} $$\n", 0o755)
        has(asks_once(tree, "info", -number), cause, "remove what a copy left, and run again")
    same(tree.run("b", "s", "info", given=b"pw\n"), (-signal.SIGTERM, "", ""), "in a pipe")


def a_folder_in_use_is_told_from_a_full_disk(tree):
    tree.built().write("s/cryfs.lock", "")
    os.mkdir(f"{tree.top}/b")
    for number, text, name, path in ((6, "block directory fault", "BLOCKS", "b"), (7, "local state fault", "STATE", "s/cryfs.lock")):
        tree.write("crates/cryfs/out/cryfs", f"#!/bin/sh\nread -r line\necho 'cryfs: {text}' >&2\nexit {number}\n", 0o755)
        lock = os.open(f"{tree.top}/{path}", os.O_RDONLY)
        fcntl.flock(lock, fcntl.LOCK_EX)
        wanted = f"cryfs: {text}\r\ncryfs: another run uses {name}: wait until it ends"
        same(asks_once(tree, "info", number).strip(), wanted, "where it is held")
        same(tree.run("flock", "-sn", f"{tree.top}/{path}", "true", script="/usr/bin/env")[0], 1, "the page's way to ask")
        os.close(lock)
        seen = asks_once(tree, "info", number)
        has(seen, f"cryfs: no other run uses {name} now, and its disk has ", f" bytes free\r\ncryfs: {name} refused a call: disk full")
        require("another run" not in seen, seen)
        same(tree.run("flock", "-sn", f"{tree.top}/{path}", "true", script="/usr/bin/env")[0], 0, "the page's way to ask")
        same(tree.run("b", "s", "info", given=b"pw\n"), (number, "", f"cryfs: {text}\n"), "in a pipe")


def info_tells_which_formats_are_taken(tree):
    tree.built("#!/bin/sh\nread -r line\necho 'filesystem 00'\n")
    old, new = "block files of format 1, of an older version, are still taken", "migrate has nothing to do"
    for record, wanted in (("1\0\0" + "2" * 16, old), ("2\0\0\1", old), ("2\0\0\2", new), ("2\0\0", ""), ("2\0\0\3", ""), ("3\0\0\2", "")):
        tree.write("s/cryfs.localstate", f"cryfs.localstate;{record}")
        seen = asks_once(tree, "info", 0)
        has(seen, "filesystem 00\r\n", wanted)
        same(seen.count("cryfs: "), 1 if wanted else 0, seen)
        same(tree.run("b", "s", "info", given=b"pw\n"), (0, "filesystem 00\n", ""), "in a pipe")


def a_copy_is_seen_as_it_goes_on(tree):
    tree.built("#!/bin/sh\nread -r line\n[ -t 2 ] && printf '\\rcryfs: 1 files\\033[K' >&2\nread -r line <wait\necho >&2\n"
               "echo 'error not-empty /'; echo 'cryfs: copy refused' >&2\nexit 13\n")
    os.mkfifo(f"{tree.top}/wait")
    terminal = Terminal(tree, "b", "s", "export", "f", "/")
    terminal.answer("Password: ", "pw")
    terminal.expect("\rcryfs: 1 files\x1b[K")
    tree.write("wait", "on\n")
    status, seen = terminal.end()
    wanted = [f"{row[2]}: {row[3]}" for row in tree.status_rows() if row[0] == "13" and "`export`" in row[2] and "`not-empty`" in row[2]]
    wanted = ["cryfs: copy refused", *(f"cryfs: {'or ' if it else ''}{line}" for it, line in enumerate(wanted))]
    same((status, seen.strip().split("\r\n")), (13, ["error not-empty /", *wanted]), "what is seen")
    status, _, errors = tree.run("-c", "echo on >wait & echo pw | ./cryfs b s export f /", script="/bin/sh")
    same((status, errors), (13, "\ncryfs: copy refused\n"), "in a pipe")


def a_signal_that_ends_the_program_ends_all(tree):
    tree.built("#!/bin/sh\nread -r line\nkill -s XFSZ $$\n")
    terminal = Terminal(tree, "b", "s", "info")
    terminal.answer("Password: ", "pw")
    same(terminal.end()[0], -signal.SIGXFSZ, "after a signal")
    tree.write("crates/cryfs/out/cryfs", "#!/bin/sh\necho ready\nsleep 30\n", 0o755)
    for number, send in ((signal.SIGINT, None), (signal.SIGTERM, os.kill), (signal.SIGHUP, os.kill)):
        terminal = Terminal(tree, "b", "s", "generate", "8")
        terminal.answer("Password: ", "pw")
        terminal.expect("ready")
        if send:
            send(terminal.pid, number)
        else:
            terminal.send("\3")
        same(terminal.end()[0], -number, "after a signal")


def signals_put_the_terminal_back(tree):
    tree.built()
    for number in (signal.SIGINT, signal.SIGTERM, signal.SIGHUP, signal.SIGQUIT):
        for typed in ([], ["one"]):
            terminal = Terminal(tree, "b", "new", "create")
            for text in typed:
                terminal.answer("Password: ", text)
            terminal.expect("again: " if typed else "Password: ")
            wait_until(lambda: not terminal.shows(), "echo stays on")
            os.kill(terminal.pid, number)
            status, seen = terminal.end()
            same(status, -number, f"after signal {number}")
            require("words" not in seen, "the program was run")
    terminal = Terminal(tree, "b", "s", "info")
    terminal.expect("Password: ")
    wait_until(lambda: not terminal.shows(), "echo stays on")
    terminal.send("\x1a")
    terminal.send("pw\n")
    same(terminal.end()[0], 5, "after a stop that is ignored at the prompt")


CASES = [create_asks_twice, create_tells_what_the_record_means, passwd_asks_for_old_and_new, commands_ask_once,
         nothing_is_asked_where_the_call_is_refused, wrong_typing_is_refused, passwords_stay_out_of_the_environment,
         shell_answers_each_line_as_it_comes, shell_tells_how_to_use_it, shell_edits_lines_and_has_a_history, shell_keeps_prompts_out_of_answers,
         shell_tells_of_an_output_that_fails, lines_that_a_terminal_cut_are_refused, an_interrupt_ends_the_input,
         an_interrupt_while_it_opens_ends_the_input, a_stop_gives_the_terminal_back, a_second_interrupt_stops, other_signals_close_the_session_too,
         shell_ends_with_the_program, shell_takes_its_password_from_elsewhere, trial_asks_nothing, a_status_is_explained, a_stop_is_explained,
         a_folder_in_use_is_told_from_a_full_disk, info_tells_which_formats_are_taken, a_copy_is_seen_as_it_goes_on,
         a_signal_that_ends_the_program_ends_all, signals_put_the_terminal_back]
