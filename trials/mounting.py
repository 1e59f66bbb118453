#!/usr/bin/env python3
"""Works in a mounted folder of the built program as in a plain one, and has things go wrong there.

    tries      what programs do with a folder (mount_tries.py), each in a mounted folder and in a plain one
    steps      random steps in one file, and in a small tree, in both (mount_steps.py); then `check` finds nothing wrong
    killed     the program is killed: what was flushed by fsync is there, and what was never flushed or waited for needn't be
    idle       the same, where nothing is asked any more for ten seconds: all that was written is there
    changed    block files are changed under a mount: each request is refused, the run tells it and ends with 5
    full       the disk of BLOCKS is full (a tmpfs, as root): an error, and behind a removal all goes on

Words name those to run; without any, all are. Every part prints a line, with its seed. It ends with 1 where something isn't as it has to be.
Where nothing can be mounted it says so in a line, and ends with 0."""
import argparse
import contextlib
import glob
import os
import random
import shutil
import signal
import subprocess
import sys
import tempfile
import time

import mount_steps
from hands_mount import BUILT_MOUNT, is_mounted, lacks, unmount
from mount_tries import REFUSED, TOP, TRIES

LIMIT = 60


class Wrong(Exception):
    """Something isn't as it has to be."""


def require(holds, why):
    if not holds:
        raise Wrong(why)


def wait_until(holds, why):
    end = time.monotonic() + LIMIT
    while not holds():
        require(time.monotonic() < end, why)
        time.sleep(0.02)


class System:
    """A file system in folders of its own, the folder where it is mounted, and a plain one."""

    def __init__(self, top):
        self.top, self.blocks, self.folder, self.plain = top, f"{top}/b", f"{top}/m", f"{top}/plain"
        for path in (self.blocks, self.folder, self.plain):
            os.mkdir(path)
        with open(f"{top}/pw", "w", encoding="utf-8") as file:
            file.write("pw\n")
        self.started = None

    def words(self, *words):
        return [f"{TOP}/cryfs", "--password-file", "pw", "b", "s", *words]

    def call(self, *words, status=0):
        """What a run prints, which has to end so."""
        ended = subprocess.run(self.words(*words), cwd=self.top, stdin=subprocess.DEVNULL, stdout=subprocess.PIPE, stderr=subprocess.PIPE, check=False)
        said = ended.stderr.decode()
        require(ended.returncode == status, f"{words[0]} ended with {ended.returncode}: {said}")
        return ended.stdout.decode()

    def create(self):
        self.call("create", "--scrypt-n", "16")
        return self

    def mount(self):
        self.started = subprocess.Popen(self.words("mount", "m"), cwd=self.top, stdin=subprocess.DEVNULL, stderr=subprocess.PIPE)
        wait_until(lambda: is_mounted(self.folder) or self.started.poll() is not None, "it is never mounted")
        os.statvfs(self.folder)

    def ended(self):
        """The status of the run that mounted, which ends by itself, and what it said."""
        said = self.started.communicate(timeout=LIMIT)[1].decode()
        require(not is_mounted(self.folder), "it is still mounted")
        return self.started.returncode, said

    def unmount(self, status=0):
        said = unmount(self.folder)
        require(not said, said)
        return self.ended_with(status)

    def ended_with(self, status):
        found, told = self.ended()
        require(found == status, f"the mount ended with {found}: {told}")
        return told

    def kill_program(self):
        """Kills what has the kernel's descriptor as its input, and these folders as its words."""
        for number in filter(str.isdigit, os.listdir("/proc")):
            with contextlib.suppress(OSError):
                with open(f"/proc/{number}/cmdline", "rb") as file:
                    is_ours = os.fsencode(f"{self.top}/b") in file.read()
                if is_ours and os.readlink(f"/proc/{number}/fd/0") == "/dev/fuse":
                    os.kill(int(number), signal.SIGKILL)
                    return
        raise Wrong("the program isn't found")

    def is_whole(self):
        """A check finds nothing wrong."""
        checked = self.call("check")
        require(checked.startswith("check yes "), checked[:300])

    def end(self):
        while is_mounted(self.folder):
            unmount(self.folder, "-uz" if shutil.which("fusermount3") else "-l")
        if self.started and self.started.poll() is None:
            self.started.communicate(timeout=LIMIT)


def put(path, data, flush=False):
    file = os.open(path, os.O_WRONLY | os.O_CREAT | os.O_TRUNC, 0o644)
    try:
        while data:
            data = data[os.write(file, data) :]
        if flush:
            os.fsync(file)
    finally:
        os.close(file)


def tries(system, _):
    """Each in a folder of its own, which is removed behind it."""
    system.create().mount()
    wrong = []
    for one in TRIES:
        found = []
        for above in (system.folder, system.plain):
            os.mkdir(f"{above}/t")
            found.append(mount_steps.seen(one, f"{above}/t"))
            shutil.rmtree(f"{above}/t")
        wanted = REFUSED.get(one, found[1])
        print(f"    {'ok' if found[0] == wanted else 'WRONG'} {one.__name__}", flush=True)
        if found[0] != wanted:
            wrong.append(f"{one.__name__}: {str(found[0])[:300]} and not {str(wanted)[:300]}")
    require(not wrong, "; ".join(wrong))
    require(not os.listdir(system.folder), "something is left")
    system.unmount()
    system.is_whole()
    return f"{len(TRIES)} tries"


def steps(system, asked):
    system.create().mount()
    for seed in range(asked.seed, asked.seed + asked.seeds):
        chance = random.Random(seed)
        mount_steps.in_a_file(system.folder, system.plain, chance, asked.steps)
        for it in (system.folder, system.plain):
            os.mkdir(f"{it}/{seed}")
        mount_steps.in_a_tree(f"{system.folder}/{seed}", f"{system.plain}/{seed}", chance, asked.steps)
    system.unmount()
    system.is_whole()
    system.mount()
    for path in mount_steps.PATHS:
        mount_steps.both(lambda it, path=path: mount_steps.look(f"{it}/{seed}/{path}"), system.folder, system.plain, f"{path} in the next mount")
    system.unmount()
    return f"seeds {asked.seed} to {seed}, {asked.steps} steps each in a file and in a tree"


def killed(system, _):
    system.create().mount()
    put(f"{system.folder}/kept", b"kept" * 5000, flush=True)
    put(f"{system.folder}/late", b"late")
    system.kill_program()
    status, said = system.ended()
    require(status == -signal.SIGKILL, f"it ended with {status}: {said}")
    system.mount()
    with open(f"{system.folder}/kept", "rb") as file:
        require(file.read() == b"kept" * 5000, "what was flushed isn't there")
    is_there = os.path.exists(f"{system.folder}/late")
    system.unmount()
    system.is_whole()
    return f"what was flushed is there, what wasn't {'too' if is_there else 'is not'}"


def idle(system, _):
    system.create().mount()
    put(f"{system.folder}/f", b"one")
    time.sleep(11)
    system.kill_program()
    system.ended()
    require("f f\n" in system.call("ls", "/"), "what was written isn't there")
    return "what was written is there after 11 s"


def changed(system, _):
    system.create().mount()
    for number in range(20):
        put(f"{system.folder}/{number}", os.urandom(40000))
    system.unmount()
    system.mount()
    for path in glob.glob(f"{system.blocks}/*/*"):
        with open(path, "r+b") as file:
            file.seek(60)
            byte = file.read(1)
            file.seek(60)
            file.write(bytes([byte[0] ^ 1]))
    found = [mount_steps.seen(it, system.folder) for it in (lambda it: mount_steps.look(f"{it}/0"), lambda it: os.mkdir(f"{it}/d"), os.listdir)]
    require(found[0] == "EBADMSG" and (found[1] == "EBADMSG" or not is_mounted(system.folder)), f"requests were answered {found}")
    said = system.unmount(status=5) if is_mounted(system.folder) else system.ended_with(5)
    # (on a busy machine the first tick may come behind the violation: then the run has unmounted by itself)
    told = "End it: " in said or "unmounted, and closing" in said
    require("violation " in said and "integrity violation" in said and told, f"it said {said}")
    system.call("ls", "/", status=5)
    return "each request is refused, and the run ends with 5"


def full(system, _):
    if os.geteuid() or subprocess.run(["mount", "-t", "tmpfs", "-o", "size=6m", "tmpfs", system.blocks], check=False).returncode:
        return "skipped: no tmpfs can be mounted"
    try:
        system.create().mount()
        put(f"{system.folder}/before", b"before", flush=True)
        found = mount_steps.seen(lambda it: put(f"{it}/big", os.urandom(12 << 20), flush=True), system.folder)
        require(found in ("EIO", "ENOSPC"), f"12 MiB on a disk of 6 were answered {found}")
        with open(f"{system.folder}/before", "rb") as file:
            require(file.read() == b"before", "what was there can't be read")
        os.remove(f"{system.folder}/big")
        put(f"{system.folder}/behind", b"behind", flush=True)
        system.unmount()
        system.is_whole()
        require("f before\n" in system.call("ls", "/") and "f behind\n" in system.call("ls", "/"), "a file isn't there")
    finally:
        system.end()
        subprocess.run(["umount", "-l", system.blocks], check=False)
    return f"{found}, and behind a removal it goes on"


PARTS = [tries, steps, killed, idle, changed, full]


def passes(part, asked):
    with tempfile.TemporaryDirectory(ignore_cleanup_errors=True) as top:
        system = System(os.path.realpath(top))
        started = time.monotonic()
        try:
            print(f"{part.__name__}: {part(system, asked)} ({time.monotonic() - started:.1f} s)", flush=True)
            return True
        except (Wrong, mount_steps.Differs, OSError, subprocess.TimeoutExpired) as why:
            print(f"FAILED {part.__name__}: {why}", flush=True)
            return False
        finally:
            system.end()


def main():
    parser = argparse.ArgumentParser(description=__doc__, formatter_class=argparse.RawDescriptionHelpFormatter)
    parser.add_argument("parts", nargs="*", metavar="PART", help=", ".join(it.__name__ for it in PARTS))
    parser.add_argument("--steps", type=int, default=1000)
    parser.add_argument("--seeds", type=int, default=3)
    parser.add_argument("--seed", type=int, default=1)
    asked = parser.parse_args()
    # (so that nothing stays mounted)
    signal.signal(signal.SIGTERM, lambda number, _: sys.exit(128 + number))
    why = lacks() or ("" if os.path.exists(BUILT_MOUNT) else "the program that mounts isn't built")
    if why:
        print(f"skipped: {why}")
        return 0
    return 0 if all([passes(it, asked) for it in PARTS if not asked.parts or it.__name__ in asked.parts]) else 1


if __name__ == "__main__":
    sys.exit(main())
