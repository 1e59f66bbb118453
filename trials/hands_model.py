#!/usr/bin/env python3
"""A program for the cases of the wrapper that need no proved one: it keeps a plain tree, and stops where a case asks.

It is copied to where the built program is. The tree is a file in BLOCKS, and STATE has a record in the form of the real
one, whose only block's version rises with each run that changed something. Beside the copy lie what a case wants of it:

    hooks    for each beginning of a line a command of a shell, which is run before the line is answered
    pauses   the same, run behind the answer and before the next line is read
    answers  for each beginning of a line the answer that it gets; after a violation all are refused
    fails    a status and a text in which the run ends
    lines    the lines that it was asked, which it writes itself
    history  where it is there, the rows behind each of them, which it writes itself"""
import json
import os
import re
import struct
import subprocess
import sys

HERE = os.path.dirname(os.path.abspath(__file__))
# Of the record: its start, the id of the file system, and the versions' place.
START, SYSTEM = b"cryfs.localstate;2\0", bytes(range(16))
EXITS = {0: "", 5: "integrity violation"}


class Wrong(Exception):
    """The name of an error."""


def beside(name):
    """What a case wants, by the beginnings of lines."""
    try:
        with open(f"{HERE}/{name}", encoding="utf-8") as file:
            return json.load(file)
    except FileNotFoundError:
        return {}


def record(version, mark=0, system=SYSTEM):
    """The bytes of a record that knows one block."""
    head = START + bytes([mark, 2]) + system + bytes(64) + struct.pack("<IQ", 1, 1)
    return head + struct.pack("<16sQB", b"\1" * 16, version, 1) + bytes(8)


def escaped(data):
    return "".join(chr(it) if 0x21 <= it <= 0x7E and it != 0x5C else f"\\x{it:02x}" for it in data)


def bytes_of(word):
    """What a word stands for."""
    raw, found, at = os.fsencode(word), b"", 0
    while at < len(raw):
        is_escape = re.match(rb"\\x[0-9a-fA-F]{2}", raw[at : at + 4])
        found += bytes.fromhex(raw[at + 2 : at + 4].decode()) if is_escape else raw[at : at + 1]
        at += 4 if is_escape else 1
    return found


class Rows:
    """The rows by their paths: a directory, a file's bytes, a link's target; the mode and the times."""

    def __init__(self, blocks):
        self.file = f"{blocks}/tree"
        with open(self.file, encoding="ascii") as file:
            self.rows = json.load(file)

    def keep(self):
        with open(self.file, "w", encoding="ascii") as file:
            json.dump(self.rows, file)

    def row(self, path, kind=None):
        """The row at a path that may be a word."""
        row = self.rows.get(path)
        if row is None:
            raise Wrong("no-entry")
        if kind and row["kind"] != kind:
            raise Wrong({"d": "not-directory", "f": "is-directory", "l": "not-link"}[kind])
        return row

    def below(self, path):
        start = path.rstrip("/") + "/"
        return [it for it in self.rows if it.startswith(start) and it != "/" and "/" not in it[len(start) :]]

    def make(self, path, row):
        if path in self.rows:
            raise Wrong("exists")
        self.row(path.rpartition("/")[0] or "/", "d")
        self.rows[path] = {"times": ["0.000000000"] * 2, "mode": {"d": "755", "f": "644", "l": "777"}[row["kind"]], **row}

    def ls(self, path):
        self.row(path, "d")
        found = sorted(self.below(path))
        return "\n".join([f"list {len(found)}", *(f"{self.rows[it]['kind']} {it.rpartition('/')[2]}" for it in found)])

    def stat(self, path):
        row = self.row(path)
        size = len(row.get("hex", row.get("target", ""))) // 2
        return f"stat {row['kind']} {row.get('mode', '755')} 0 0 {size} {' '.join(row['times'])} 0.000000000"

    def mkdir(self, path):
        self.make(path, {"kind": "d"})

    def mkfile(self, path):
        self.make(path, {"kind": "f", "hex": ""})

    def symlink(self, target, path):
        self.make(path, {"kind": "l", "target": bytes_of(target).hex()})

    def readlink(self, path):
        return f"link {escaped(bytes.fromhex(self.row(path, 'l')['target']))}"

    def rm(self, path):
        if self.row(path)["kind"] == "d":
            raise Wrong("is-directory")
        del self.rows[path]

    def rmdir(self, path):
        self.row(path, "d")
        if self.below(path):
            raise Wrong("not-empty")
        del self.rows[path]

    def mv(self, path, to):
        moved, there = self.row(path), self.rows.get(to)
        if there and (there["kind"] != moved["kind"] or self.below(to)):
            raise Wrong("exists")
        self.row(to.rpartition("/")[0] or "/", "d")
        for it in [it for it in self.rows if it == path or it.startswith(path + "/")]:
            self.rows[to + it[len(path) :]] = self.rows.pop(it)

    def write(self, path, place, digits):
        row = self.row(path, "f")
        if len(row["hex"]) != 2 * int(place):
            raise Wrong("invalid")
        row["hex"] += digits.replace("-", "")

    def read(self, path, place, count):
        return f"data {self.row(path, 'f')['hex'][2 * int(place) : 2 * (int(place) + int(count))] or '-'}"

    def utime(self, path, accessed, modified):
        self.row(path)["times"] = [accessed, modified]

    def chmod(self, path, mode):
        self.row(path)["mode"] = mode

    def sync(self):
        pass


LINES = [it for it in vars(Rows) if it not in ("keep", "row", "below", "make") and not it.startswith("_")]


class Run:
    """One run, whose answers a case may have set."""

    def __init__(self, blocks, state):
        self.rows, self.record, self.status = Rows(blocks), f"{state}/cryfs.localstate", 0
        self.hooks, self.pauses, self.answers = beside("hooks"), beside("pauses"), beside("answers")
        self.log = open(f"{HERE}/lines", "a", encoding="utf-8", errors="surrogateescape")
        self.before = json.dumps(self.rows.rows)

    def answer(self, line):
        self.log.write(line + "\n")
        self.log.flush()
        act(self.hooks, line)
        if self.status:
            return "refused violation"
        for start, text in self.answers.items():
            if line.startswith(start):
                self.status = 5 if text.startswith("violation ") else 0
                return text
        word, *words = line.split(" ")
        words = [escaped(bytes_of(it)) if it.startswith("/") else it for it in words]
        try:
            return (getattr(self.rows, word)(*words) or "ok") if word in LINES else "error bad-line"
        except Wrong as why:
            return f"error {why}"
        except TypeError:
            # (another number of words)
            return "error bad-line"

    def tell_rows(self):
        """Writes the rows as they are now, where that is wanted."""
        if os.path.exists(f"{HERE}/history"):
            with open(f"{HERE}/history", "a", encoding="ascii") as file:
                file.write(json.dumps(self.rows.rows) + "\n")

    def close(self, changes=False):
        """Keeps what changed, and a record that tells of it."""
        with open(self.record, "rb") as file:
            version = struct.unpack_from("<Q", file.read(), 129)[0]
        if self.status == 5:
            keep(self.record, record(version, 1))
        elif changes or json.dumps(self.rows.rows) != self.before:
            self.rows.keep()
            keep(self.record, record(version + 1))


def act(commands, line):
    """Runs the command that a case set for such a line."""
    for start, command in commands.items():
        if line.startswith(start):
            subprocess.run(["/bin/sh", "-c", command], stdin=subprocess.DEVNULL, stdout=sys.stderr, check=False)


def keep(path, content):
    with open(f"{path}.new", "wb") as file:
        file.write(content)
    os.replace(f"{path}.new", path)


def create(blocks, state):
    if os.path.exists(f"{state}/cryfs.localstate"):
        return end(4, "file system exists")
    for it in (blocks, state):
        os.makedirs(it, exist_ok=True)
    with open(f"{blocks}/tree", "w", encoding="ascii") as file:
        json.dump({"/": {"kind": "d", "times": ["0.000000000"] * 2}}, file)
    keep(f"{state}/cryfs.localstate", record(1))
    print("created " + SYSTEM.hex(), flush=True)
    return end(0, "")


def look(blocks, words):
    """Answers one line by BLOCKS alone, and keeps nothing."""
    run = Run(blocks, None)
    print(run.answer(" ".join(words)), flush=True)
    return end(run.status, EXITS[run.status])


def end(status, text):
    """Ends so, or as a case wants."""
    if os.path.exists(f"{HERE}/fails"):
        with open(f"{HERE}/fails", encoding="utf-8") as file:
            number, _, text = file.read().strip().partition(" ")
        status = int(number)
    if text:
        os.write(2, f"cryfs: {text}\n".encode())
    return status


def main(blocks, state, command, *words):
    given = sys.stdin.buffer
    given.readline()
    if command == "create":
        return create(blocks, state)
    if command == "look":
        return look(blocks, words)
    run = Run(blocks, state)
    if command == "shell":
        while raw := given.readline():
            line = os.fsdecode(raw).rstrip("\n")
            print(run.answer(line), flush=True)
            run.tell_rows()
            act(run.pauses, line)
    elif command in LINES:
        print(run.answer(" ".join([command, *words])), flush=True)
    elif command == "put":
        run.answer(f"mkfile {words[0]}")
        run.answer(f"write {words[0]} 0 {given.read().hex()}")
    else:
        print(f"{command} done", flush=True)
    run.close(command in ("import", "migrate"))
    return end(run.status, EXITS[run.status])


if __name__ == "__main__":
    sys.stdout.reconfigure(errors="surrogateescape")
    sys.exit(main(*sys.argv[1:]))
