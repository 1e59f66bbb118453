#!/usr/bin/env python3
"""Refuses memory in a run of the built program, and looks at what the next session finds.

For each kind of run of `kinds.py` its calls of malloc and realloc are counted in an undisturbed run. Then a copy of the same
folders gets a run in which one of them is refused, or one and all later ones: the first ones, the last ones, and some between.
It has to end with 0 or with want of memory, or as a copy that was stopped by such an answer; as a fault of the folder of the host
only where that says that memory was wanted. Afterwards an honest session has to find what `calls.py` says of that kind. Ends with 1 where anything else was seen. Needs a C compiler.
"""
import argparse
import collections
import os
import subprocess
import sys
import tempfile
from dataclasses import replace

from calls import some_numbers
from killing import Lost
from kinds import KINDS, Copied, made_for
from runs import BUILT, Program

# 0: lines may have been answered `memory`. 10: want of memory. 14: a command of a copy was.
STATUSES = (0, 10, 14)
COPIES = ("import", "export", "put", "get")
# The status of a folder of the host that failed, and what it says where memory was refused to it.
OF_HOST = 12, "takes more memory than there is"
WAYS = ("once", "from then on")
# Counts calls, and refuses the Nth, or that one and all later ones. At its end it writes how many there were.
LIBRARY = r"""
#define _GNU_SOURCE
#include <dlfcn.h>
#include <errno.h>
#include <fcntl.h>
#include <stdio.h>
#include <stdlib.h>
#include <unistd.h>

static unsigned long count, at, on;
static int is_read;

static int refuses(void) {
    if (!is_read) {
        is_read = 1;
        const char *number = getenv("REFUSE_AT");
        at = number ? strtoul(number, 0, 10) : 0;
        on = getenv("REFUSE_ON") != 0;
    }
    count += 1;
    int no = at && (count == at || (on && count > at));
    if (no)
        errno = ENOMEM;
    return no;
}

void *malloc(size_t size) {
    static void *(*real)(size_t);
    if (!real)
        real = (void *(*)(size_t))dlsym(RTLD_NEXT, "malloc");
    return refuses() ? 0 : real(size);
}

void *realloc(void *old, size_t size) {
    static void *(*real)(void *, size_t);
    if (!real)
        real = (void *(*)(void *, size_t))dlsym(RTLD_NEXT, "realloc");
    return refuses() ? 0 : real(old, size);
}

__attribute__((destructor)) static void tell(void) {
    const char *path = getenv("COUNT_TO");
    int file = path ? open(path, O_WRONLY | O_CREAT | O_TRUNC, 0600) : -1;
    if (file >= 0) {
        char text[32];
        int length = snprintf(text, sizeof text, "%lu\n", count);
        if (write(file, text, length) != length)
            _exit(125);
        close(file);
    }
}
"""


def build(folder):
    """The library that stands before the system's."""
    source, library = os.path.join(folder, "refuse.c"), os.path.join(folder, "refuse.so")
    with open(source, "w") as file:
        file.write(LIBRARY)
    subprocess.run(["cc", "-O1", "-shared", "-fPIC", "-o", library, source, "-ldl"], check=True)
    return library


def under(program, library, **words):
    return Program(program.path, ["env", f"LD_PRELOAD={library}", *(f"{name}={value}" for name, value in words.items())])


def counted(program, library, run, folder):
    path = os.path.join(folder, "count")
    ended = run(under(program, library, COUNT_TO=path))
    if ended.status:
        raise SystemExit(f"an undisturbed run ended with status {ended.status}: {ended.errors}")
    with open(path) as file:
        return int(file.read())


def without_memory(kind, ended):
    """What a copy printed, less the line that says that memory stopped it."""
    return replace(ended, output="") if kind in COPIES and ended.output == "memory\n" else ended


def is_well(ended):
    return ended.status in STATUSES or ended.status == OF_HOST[0] and OF_HOST[1] in ended.errors


def try_one(kind, base, library, number, way):
    """The status of the run in which that call was refused."""
    run, holds = KINDS[kind]
    system = Copied(base)
    words = {"REFUSE_AT": number, **({"REFUSE_ON": 1} if way == WAYS[1] else {})}
    try:
        ended = run(system.folders)(under(base.program, library, **words))
        where = f"{kind}: call {number}, {way}: status {ended.status}, {ended.errors.strip()!r}, {ended.output[:80]!r}"
        if not is_well(ended):
            raise Lost(f"{where}: another status")
        if not holds(system, without_memory(kind, ended)):
            raise Lost(f"{where}: the next session finds something else")
        return ended.status
    except Lost as why:
        raise Lost(f"{kind}: call {number}, {way}: {why}") from None
    finally:
        system.folders.remove()


def try_kind(program, library, folder, kind, most):
    base = made_for(kind, program)
    whole = Copied(base)
    count, found, wrong = counted(program, library, KINDS[kind][0](whole.folders), folder), collections.Counter(), 0
    whole.folders.remove()
    for number in some_numbers(count, min(most, count)):
        for way in WAYS:
            try:
                found[try_one(kind, base, library, number, way)] += 1
            except Lost as why:
                wrong += 1
                print(f"FAILED {why}", flush=True)
    base.folders.remove()
    told = ", ".join(f"{times} ended with {status}" for status, times in sorted(found.items()))
    print(f"{kind}: {count} calls, {sum(found.values()) + wrong} runs, {wrong} wrong; {told}", flush=True)
    return not wrong


def main():
    parser = argparse.ArgumentParser(description=__doc__, formatter_class=argparse.RawDescriptionHelpFormatter)
    parser.add_argument("kinds", nargs="*", metavar="KIND", help=f"of {', '.join(KINDS)} (all)")
    parser.add_argument("--most", type=int, default=40, help="how many calls are refused in a kind (40)")
    parser.add_argument("--program", default=BUILT)
    asked = parser.parse_args()
    with tempfile.TemporaryDirectory() as folder:
        library = build(folder)
        return 0 if all([try_kind(Program(asked.program), library, folder, it, asked.most) for it in asked.kinds or KINDS]) else 1


if __name__ == "__main__":
    sys.exit(main())
