"""The kinds of run that calls.py disturbs: how each is begun, over which folders, and what has to hold afterwards."""
import os
import shutil

from killing import LOOK, Lost, System, without_times
from kill_migrate import PASSWORD as OLD_PASSWORD
from kill_migrate import formats, lay_out
from rows import asked, is_part, make_rows, rows_of, told
from runs import PASSWORD, QUICK_KEY, Folders

NEW_PASSWORD = "another password for trials"
BASE = ["mkdir /a", "mkfile /a/a", "write /a/a 0 " + "61" * 3000, "symlink to /l", "mkdir /b"]
LINE = "mkdir /c"
LINES = ["write /a/a 100 6263", "mkfile /a/b", "write /a/b 0 " + "62" * 1500, "sync", "mv /a/a /b/c", "rm /l", "chmod /b 700", "sync",
         "truncate /b/c 100", "read /b/c 0 10", "mkdir /c", "ls /"]
# What is imported beside the rows of BASE, which are those that are exported.
GIVEN = {"c": None, "c/a": b"63" * 1500, "c/b": b"", "c/c": "/nowhere", "c/d": None, "d": b"d"}
HELD = {"a": None, "a/a": b"a" * 3000, "b": None, "l": "to"}
# What `put` takes, the line behind the password, and the file that it makes of it.
PUT = "p" * 150_000
PUT_PATH = "/c"
# What `generate` asks: FORMATS has the table.
GENERATED = 24


class Copied(System):
    """A copy of a file system, so that each run finds the same."""

    def __init__(self, base):
        self.program, self.folders, self.history, self.usual = base.program, Folders(), list(base.history), None
        self.base = base
        for name in ("blocks", "state"):
            shutil.copytree(getattr(base.folders, name), getattr(self.folders, name), dirs_exist_ok=True)


def seen_by(system, password=PASSWORD):
    return system.program.run(system.folders, ["shell"], LOOK, password=password)


def holds_history(system, found):
    plain = system.program.trial(system.history + LOOK)[len(system.history) :]
    return found.status == 0 and list(map(without_times, found.answers)) == list(map(without_times, plain))


def after_info(system, ended):
    return holds_history(system, seen_by(system))


def after_check(system, ended):
    named = [line for line in ended.answers if line.startswith("block ")]
    told = f"check yes {len(named)}" if ended.status == 0 else "check yes"
    others = [line for line in ended.answers if line not in named]
    if others[:1] == ["fault directory"]:
        # of `check --all`: no block is refused
        fine = ended.status != 0 and all(line.endswith(" fault") for line in named) and set(others[1:]) <= {"refused 0", f"failed {len(named)}"}
    else:
        fine = all(line.startswith(told) for line in others)
    return holds_history(system, seen_by(system)) and fine


def after_passwd(system, ended):
    new = holds_history(system, seen_by(system, NEW_PASSWORD))
    return new if ended.status == 0 else new or holds_history(system, seen_by(system))


def after_create(system, ended):
    found = seen_by(system)
    return holds_history(system, found) or (ended.status != 0 and found.status in (3, 4))


def after_lines(system, ended, asked_lines):
    answers, lines = ended.answers, list(asked_lines)
    syncs = [at for at, line in enumerate(lines) if line == "sync"]
    done = max((at + 1 for at in syncs if answers[at : at + 1] == ["ok"]), default=0)
    points = {done} | {at + 1 for at in syncs if at + 1 > done and at <= len(answers)}
    points |= {len(asked_lines)} if len(answers) == len(asked_lines) else set()
    if ended.status in (8, 9):
        # the input or the output failed, and the session was closed with the lines asked so far
        points |= {len(answers), min(len(answers) + 1, len(asked_lines))}
    if ended.status == 0:
        points = {len(asked_lines)}
    for at, answer in enumerate(answers):
        if answer.startswith("fault ") or answer == "memory":
            lines[at] = "sync"
    system.look(lines, ["ok" if it.startswith("fault ") or it == "memory" else it for it in answers], sorted(points))
    return True


def after_shell(system, ended):
    return after_lines(system, ended, LINES)


def after_line(system, ended):
    return after_lines(system, ended, [LINE])


def generated(count):
    """The first lines that `generate` asks."""
    lines = []
    for k in range(count // 8 + 1):
        at, size = f"/d{(5 * k + 3) % 16}", (37 * k + 11) % 1000
        lines += [f"mkdir {at}", f"mkfile {at}/f{k}", f"write {at}/f{k} 0 {bytes([k % 256]).hex() * 40}", f"mv {at}/f{k} {at}/g{k}",
                  f"truncate {at}/g{k} {size}", f"symlink g{k} {at}/l{k}", f"read {at}/g{k} 0 1000", f"rm {at}/l{k}"]
    return lines[:count]


def after_generate(system, ended):
    """Which lines met a fault isn't told: then only that what is kept is a tree."""
    if ended.output and int(ended.output.split()[7]):
        return system.program.run(system.folders, ["check"]).status == 0
    points = [GENERATED] if ended.status == 0 else range(GENERATED + 1) if ended.status in (8, 9) else [0, GENERATED]
    system.look(generated(GENERATED), [], points)
    return True


def host_of(folders, rows):
    """The folder of the host with these rows, beside those of the run."""
    host = os.path.join(folders.top, "host")
    return host if os.path.isdir(host) else make_rows(host, rows)


def tells_well(ended, whole):
    """Whether what a copy printed fits its status."""
    return ended.output == whole if ended.status == 0 else ended.output in ("", whole, "fault directory\n", "fault state\n")


def after_import(system, ended):
    lines, done = asked(GIVEN)
    system.look(lines, [], done[-1:] if ended.status == 0 else done)
    return tells_well(ended, told("imported", GIVEN)) and rows_of(host_of(system.folders, {})) == GIVEN


def after_export(system, ended):
    found, whole = rows_of(host_of(system.folders, {})), told("exported", HELD)
    is_well = found == HELD if ended.output == whole else is_part(found, HELD)
    return is_well and tells_well(ended, whole) and holds_history(system, seen_by(system))


def after_put(system, ended):
    given = PUT.encode() + b"\n"
    found = system.program.session(system.folders, [f"read {PUT_PATH} 0 1048576"])
    answer = "".join(found.answers)
    if found.status or not answer.startswith(("data ", "error no-entry")):
        raise Lost(f"the file was answered {answer[:100]!r}, with status {found.status}")
    held = None if answer.startswith("error") else bytes.fromhex(answer[5:].replace("-", ""))
    lines = [] if held is None else [f"mkfile {PUT_PATH}", f"write {PUT_PATH} 0 {held.hex() or '-'}"]
    system.look(lines, [], [len(lines)])
    return tells_well(ended, f"imported 0 1 0 {len(given)}\n") and (held == given if ended.status == 0 else given.startswith(held or b""))


def after_get(system, ended):
    whole = HELD["a/a"].decode()
    is_well = ended.output == whole if ended.status == 0 else whole.startswith(ended.output)
    return is_well and holds_history(system, seen_by(system))


def after_migrate(system, ended):
    """As in a session a line may name a fault, and the status be 0."""
    is_done = ended.output.startswith("migrated ")
    if not is_done and ended.output not in ("", "fault directory\n", "fault state\n", "memory\n"):
        return False
    if ended.status == 0 and (not ended.output or (is_done and formats(system.folders) != {2})):
        return False
    for word in ("check", "migrate", "check"):
        found = system.program.run(system.folders, [word], password=OLD_PASSWORD)
        if found.status or (word == "check" and found.output != system.base.listed):
            return False
    return formats(system.folders) == {2}


KINDS = {
    "info": (lambda folders: lambda program: program.run(folders, ["info"]), after_info),
    "check": (lambda folders: lambda program: program.run(folders, ["check"]), after_check),
    "check --all": (lambda folders: lambda program: program.run(folders, ["check", "--all"]), after_check),
    "trial": (lambda folders: lambda program: program.run(folders, ["trial"], LINES, password=None), after_info),
    "passwd": (lambda folders: lambda program: program.run(folders, ["passwd"], [NEW_PASSWORD]), after_passwd),
    "create": (lambda folders: lambda program: program.run(folders, ["create", *QUICK_KEY]), after_create),
    "shell": (lambda folders: lambda program: program.session(folders, LINES), after_shell),
    "line": (lambda folders: lambda program: program.run(folders, LINE.split()), after_line),
    "generate": (lambda folders: lambda program: program.run(folders, ["generate", str(GENERATED)]), after_generate),
    "migrate": (lambda folders: lambda program: program.run(folders, ["migrate"], password=OLD_PASSWORD), after_migrate),
    "put": (lambda folders: lambda program: program.run(folders, ["put", PUT_PATH], [PUT]), after_put),
    "get": (lambda folders: lambda program: program.run(folders, ["get", "/a/a"]), after_get),
    "import": (lambda folders: lambda program: program.run(folders, ["import", host_of(folders, GIVEN), "/"]), after_import),
    "export": (lambda folders: lambda program: program.run(folders, ["export", host_of(folders, {}), "/"]), after_export),
}


class Empty(System):
    """Folders without a file system."""

    def __init__(self, program):
        self.program, self.folders, self.history, self.usual = program, Folders(), [], None


class Old(Empty):
    """The file system that a program of before block format 2 made."""

    def __init__(self, program):
        super().__init__(program)
        lay_out(self.folders)
        self.listed = program.run(self.folders, ["check"], password=OLD_PASSWORD).output
        lay_out(self.folders)


def made_system(program):
    system = System(program, Folders(), 1024)
    if program.session(system.folders, BASE).status:
        raise SystemExit("the first session failed")
    system.history = list(BASE)
    return system


def made_for(kind, program):
    return {"create": Empty, "migrate": Old}.get(kind, made_system)(program)
