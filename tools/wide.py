"""Builds programs that `rt ci` has proved once more, for processors with AVX2, over the libraries that it left in its room.

`rt ci` has no word for the processor, and `rt run`, which has one, would first prove every library again: what a gate leaves
has no stamp. So `rattle` itself is called. It checks the program's own functions again, over the same libraries, and makes
nothing unless they are proved. Where it doesn't, there is no such program, and a line says so."""

import os
import shutil
import subprocess
import tempfile
from concurrent.futures import ThreadPoolExecutor

CPU = "x86-64-v3"
# The most processors that one check makes use of.
MOST = 4
# The seconds that a run of the gate's own trial may take.
LIMIT = 120
# How a program ends that the processor can't run.
NOT_THIS_PROCESSOR = 127


class NotBuilt(Exception):
    """Why a program isn't made."""


def kit():
    """The folder of the kit whose `rt` is on the PATH."""
    ran = subprocess.run(["rt", "doc"], stdin=subprocess.DEVNULL, stdout=subprocess.PIPE, text=True)
    return os.path.dirname(ran.stdout.strip())


def below(name, lines):
    """The crates of the project that this one stands on."""
    found, left = [], [name]
    while left:
        for it in lines[left.pop()]:
            if it in lines and it not in found:
                found.append(it)
                left.append(it)
    return found


def words_of(kit, room, name, lines):
    """What `rt` tells `rattle` of a program: its root, the libraries that it names, and where others lie."""
    own = {it: f"{room}/crates/{it}/out/rlib" for it in below(name, lines)}
    words = ["--crate-name", name, "src/main.rt", "-L", f"dependency={kit}/rlibs"]
    for it in ("std", *lines[name]):
        words += ["--extern", f"{it}={own.get(it, f'{kit}/rlibs')}/{it}.rlib"]
    for it in own.values():
        words += ["-L", f"dependency={it}"]
    return [*words, "--antt-project", f"{kit}/rattle/logic/antt-project.json", "--logic-built", f"{kit}/logic_built"]


def call(folder, what, *words):
    """Runs a command of the kit, which says itself what it doesn't do."""
    if subprocess.run(words, cwd=folder, stdin=subprocess.DEVNULL).returncode:
        raise NotBuilt(what)


def make(kit, room, name, lines, jobs):
    """Checks, compiles, links and tries one program, and gives its path in the room."""
    folder, to = f"{room}/crates/{name}", f"out/{name}.v3"
    how = [f"--cpu={CPU}", "--jobs", str(jobs), "--toolchain", f"{kit}/toolchain"]
    call(folder, "rattle made nothing", f"{kit}/bin/rattle", "build", *words_of(kit, room, name, lines), *how, "-o", f"{to}.o")
    libraries = [f"{kit}/c/libos_c.a", f"{kit}/c/liblibc_c.a"]
    call(folder, "it isn't linked", f"{kit}/bin/rattle-link", "--target", "x86_64-unknown-linux-gnu", *how[-2:], "-o", to, f"{to}.o", *libraries)
    run(folder, f"{folder}/{to}")
    return f"{folder}/{to}"


def stream(folder, name):
    """What the gate gives the crate's program, or awaits of it, in a file beside its sources."""
    try:
        with open(f"{folder}/{name}", "rb") as file:
            return file.read()
    except FileNotFoundError:
        return b""


def run(folder, program):
    """Runs it as the gate has run the other one, where this processor can."""
    words, wanted = stream(folder, "args").decode().splitlines(), int(stream(folder, "status") or 0)
    with tempfile.TemporaryDirectory() as nowhere:
        ran = subprocess.run([program, *words], input=stream(folder, "stdin"), stdout=subprocess.PIPE, cwd=nowhere, timeout=LIMIT)
    if ran.returncode != NOT_THIS_PROCESSOR and (ran.returncode, ran.stdout) != (wanted, stream(folder, "stdout")):
        raise NotBuilt(f"it ended with {ran.returncode} after {ran.stdout[-200:]}")


def make_all(room, names, lines):
    """The programs that could be made, by their crates. They are made side by side."""
    folder, jobs = kit(), max(1, min(MOST, len(os.sched_getaffinity(0)) // len(names)))

    def made(name):
        try:
            return make(folder, room, name, lines, jobs)
        except (NotBuilt, OSError, subprocess.SubprocessError, ValueError) as why:
            print(f"note: {name} isn't built for {CPU}, so the other one serves all processors: {why}", flush=True)
            return None

    with ThreadPoolExecutor(len(names)) as pool:
        return {name: path for name, path in zip(names, pool.map(made, names)) if path}
