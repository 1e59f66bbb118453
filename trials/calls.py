#!/usr/bin/env python3
"""Fails one call on the system in a run of the built program, by strace's injection, and looks at what the next session finds.

For each kind of run, each of its calls on files is counted in an undisturbed run. Then a copy of the same folders gets a run in
which one of these calls answers EIO or ENOSPC, or in which the program is killed at it: the first ones, the last ones, and some
between. A status has to be one of the page's, and never an alarm. Afterwards an honest session has to find

    info, trial   the tree as it was
    check         the tree as it was; a run that ended with 0 named every block, and no run anything wrong. So check --all
    passwd        the same under the old password or the new one; under the new one, where the run ended with 0
    create        the empty tree, where the run ended with 0; else that, or no file system
    shell         the tree of a kept point: that of the last sync that was answered ok, or of one that was tried after it
                  Where the input or the output failed the run was closed, so then also that after the last line that was asked,
                  though its answer may not have been written
    line          the same of one line
    generate      the tree after none of its lines or all; where one met a fault, which isn't told, a tree
    migrate       the same blocks under the same paths, and a whole run leaves files of format 2 alone
    put           the tree, or one with a file of a front part; of all, where the run ended with 0
    get           the tree as it was; it wrote a front part of the file, or all where it ended with 0
    import        the tree after some of its commands, from the first on; after all of them, where the run ended with 0
    export        the tree as it was; and in the folder a part of it, or all where the run ended with 0 or told that

A line that was answered a fault must have left the tree. The tree is compared with `trial`. Ends with 1 where anything else was seen.
"""
import argparse
import collections
import os
import re
import subprocess
import sys
import tempfile

from killing import Lost
from kinds import KINDS, Copied, made_for
from runs import BUILT, Program

CALLS = ["openat", "read", "pread64", "write", "pwrite64", "lseek", "close", "fsync", "fdatasync", "rename", "renameat", "renameat2", "unlink",
         "unlinkat", "mkdir", "mkdirat", "rmdir", "linkat", "fstat", "newfstatat", "statx", "getdents64", "flock", "fcntl", "ftruncate", "getrandom",
         "readlink", "readlinkat", "symlink", "symlinkat"]
FAULTS = {"EIO": "error=EIO", "ENOSPC": "error=ENOSPC", "a kill": "signal=KILL"}
STATUSES = [0, 1, 3, 4, 6, 7, 8, 9, 10]
# Those of a copy besides: the folder failed, or a command wasn't answered.
OF_COPIES = [12, 14]
# What a shell or a loader answers where the program could not be started at all.
NOT_STARTED = 127


def strace(trace, what):
    return ["strace", "-f", "-qq", "-o", trace, "-e", what]


def counted(program, run):
    """How often each of the calls comes in the run."""
    with tempfile.NamedTemporaryFile("r") as trace:
        ended = run(Program(program.path, strace(trace.name, "trace=" + ",".join(f"?{call}" for call in CALLS))))
        if ended.status:
            raise SystemExit(f"an undisturbed run ended with status {ended.status}: {ended.errors}")
        return collections.Counter(re.findall(r"^\d+ +(\w+)\(", trace.read(), re.MULTILINE))


def failing(program, call, number, fault):
    return Program(program.path, strace(os.devnull, f"inject={call}:{FAULTS[fault]}:when={number}"))


def some_numbers(count, most):
    """Of the numbers from 1 on, at most so many: the first and the last ones, and some between."""
    return sorted({1 + round(at * (count - 1) / max(1, most - 1)) for at in range(most)})


def try_one(kind, base, call, number, fault):
    """The status of the run in which that call failed."""
    run, holds = KINDS[kind]
    system = Copied(base)
    try:
        ended = run(system.folders)(failing(base.program, call, number, fault))
        where = f"{kind}: {call} number {number}, {fault}: status {ended.status}, {ended.errors.strip()!r}"
        others = OF_COPIES if kind in ("import", "export", "put", "get") else []
        if ended.status not in STATUSES + others + [NOT_STARTED] + ([-9] if fault == "a kill" else []):
            raise Lost(f"{where}: no status of the page")
        if not holds(system, ended):
            raise Lost(f"{where}: the next session finds something else")
        return ended.status
    except Lost as why:
        raise Lost(f"{kind}: {call} number {number}, {fault}: {why}") from None
    finally:
        system.folders.remove()


def try_kind(program, kind, most):
    base = made_for(kind, program)
    whole = Copied(base)
    counts, found, wrong = counted(program, KINDS[kind][0](whole.folders)), collections.Counter(), []
    whole.folders.remove()
    for call in counts:
        for number in some_numbers(counts[call], most):
            for fault in FAULTS:
                try:
                    found[try_one(kind, base, call, number, fault)] += 1
                except Lost as why:
                    wrong.append(str(why))
                    print(f"FAILED {why}", flush=True)
    base.folders.remove()
    told = ", ".join(f"{count} ended with {status}" for status, count in sorted(found.items()))
    print(f"{kind}: {sum(counts.values())} calls of {len(counts)} names, {sum(found.values()) + len(wrong)} runs, {len(wrong)} wrong; {told}", flush=True)
    return not wrong


def main():
    parser = argparse.ArgumentParser(description=__doc__, formatter_class=argparse.RawDescriptionHelpFormatter)
    parser.add_argument("kinds", nargs="*", metavar="KIND", help=f"of {', '.join(KINDS)} (all)")
    parser.add_argument("--most", type=int, default=8, help="how many calls of one name fail in a kind (8)")
    parser.add_argument("--program", default=BUILT)
    asked = parser.parse_args()
    if subprocess.run(["strace", "-V"], stdout=subprocess.DEVNULL, check=False).returncode:
        raise SystemExit("there is no strace")
    return 0 if all([try_kind(Program(asked.program), kind, asked.most) for kind in asked.kinds or KINDS]) else 1


if __name__ == "__main__":
    sys.exit(main())
