#!/usr/bin/env python3
"""Has `rt ci` prove and build programs and all that they stand on. No crate of tests is among those.

    tools/prove.py NAME..
    tools/prove.py sum NAME..    prints one sum of what the first would copy

`rt ci` proves each crate over the statements of those below it, the longest chain of crates first, as many side by side
as there are processors and memory for. It works in a room of its own, which holds the sources less their wrong
bodies: these belong to the gate. First `copied SUM` and `crates COUNT` are printed, and the lines of rt come as it prints
them. Then each program is built for processors with AVX2 over the same libraries (`wide.py`). A program is moved to
crates/NAME/out/NAME, its other one to NAME.v3, or what was there under that name is removed. `built FILE` is printed for
each. Ends with the status of rt."""

import hashlib
import os
import re
import shutil
import stat
import subprocess
import sys

TOP = os.path.dirname(os.path.dirname(os.path.abspath(__file__)))
# How a file is read and written as it is, also where it isn't UTF-8.
BYTES = {"encoding": "utf-8", "errors": "surrogateescape", "newline": ""}


def read(path):
    with open(path, **BYTES) as file:
        return file.read()


def read_line(line):
    """The crate of a line of crates.txt and the libraries that it names, or None."""
    name, mark, libraries = line.partition("#")[0].partition(":")
    return (name.split()[0], libraries.split()) if mark else None


def read_lines():
    """The libraries of each crate, in the order of crates.txt."""
    return dict(filter(None, map(read_line, read(f"{TOP}/crates.txt").splitlines())))


def is_left(name):
    """Whether an editor or the system left this beside the sources, by its name: copies, locks, what isn't saved yet."""
    return name.startswith((".", "#")) or name.endswith("~")


def sources(name):
    """The files of a crate by their paths, less wrong bodies. Tests stand in crates of their own."""
    top, files = f"{TOP}/crates/{name}", {}
    for folder, below, names in os.walk(top):
        below[:] = [it for it in below if it not in ("out", "must-fail", "plants") and not is_left(it)]
        for it in names:
            if not is_left(it) and stat.S_ISREG(os.lstat(f"{folder}/{it}").st_mode):
                files[os.path.relpath(f"{folder}/{it}", top)] = read(f"{folder}/{it}")
    return files


def stands_on(names):
    """Of the programs and each crate that they stand on: its files, and the libraries that they name."""
    lines, found, left = read_lines(), {}, list(names)
    while left:
        one = left.pop()
        if one in lines and one not in found:
            files = sources(one)
            words = {word for text in files.values() for word in re.findall(r"\w+", text)}
            found[one] = files, [it for it in lines[one] if it in words]
            left += found[one][1]
    return found


def whole(names):
    """The files of the room by their paths, and the libraries of each of its crates."""
    found = stands_on(names)
    lines = {one: libraries for one, (_, libraries) in sorted(found.items())}
    listed = "".join(f"{one}: {' '.join(libraries)}\n" for one, libraries in lines.items())
    files = {"HANDLES": read(f"{TOP}/HANDLES"), "crates.txt": listed}
    for one, (its, _) in found.items():
        files.update({f"crates/{one}/{path}": text for path, text in its.items()})
    return files, lines


def sum_up(files):
    total = hashlib.sha256()
    for piece in (it.encode("utf-8", "surrogateescape") for pair in sorted(files.items()) for it in pair):
        total.update(b"%d " % len(piece) + piece)
    return total.hexdigest()


def fill(room, names):
    """Puts what the programs stand on into the room, and tells its sum and how many crates it is. Gives their libraries."""
    files, lines = whole(names)
    # A repository of its own, whose top rt looks for.
    os.makedirs(f"{room}/.git")
    for path, text in files.items():
        os.makedirs(os.path.dirname(f"{room}/{path}"), exist_ok=True)
        with open(f"{room}/{path}", "w", **BYTES) as file:
            file.write(text)
    print(f"copied {sum_up(files)}\ncrates {len(lines)}", flush=True)
    return lines


def flush(path):
    """Has a file or folder kept, so that a power cut doesn't take back what it holds."""
    number = os.open(path, os.O_RDONLY)
    os.fsync(number)
    os.close(number)


def put(made, place):
    """Moves what was made to its place, or removes what is there where nothing was."""
    if made:
        flush(made)
        os.makedirs(os.path.dirname(place), exist_ok=True)
        os.replace(made, place)
        print(f"built {os.path.basename(place)}", flush=True)
    elif os.path.exists(place):
        os.remove(place)


def prove(names):
    # (whoever only sums doesn't wait for this)
    import wide

    room = f"{TOP}/crates/{names[0]}/out/room"
    shutil.rmtree(room, ignore_errors=True)
    lines = fill(room, names)
    unbuffered = {**os.environ, "PYTHONUNBUFFERED": "1"}
    status = subprocess.run(["rt", "ci"], cwd=room, env=unbuffered, stdin=subprocess.DEVNULL).returncode
    if not status:
        made = wide.make_all(room, names, lines)
        for name in names:
            out = f"{TOP}/crates/{name}/out"
            put(f"{room}/crates/{name}/out/{name}", f"{out}/{name}")
            put(made.get(name), f"{out}/{name}.v3")
            flush(out)
    shutil.rmtree(room)
    return status


def main(words):
    try:
        if words[0] != "sum":
            return prove(words)
        print(sum_up(whole(words[1:])[0]))
    except OSError as why:
        return f"prove.py: {why}"


if __name__ == "__main__":
    sys.exit(main(sys.argv[1:]))
