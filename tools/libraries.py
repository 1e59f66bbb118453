#!/usr/bin/env python3
"""Gives the crates of this checkout the libraries that a run of the gate in another one has of the same files.

    tools/libraries.py GATE    GATE is a checkout in which `rt ci` has ended

Then `rt check`, `rt test`, `rt plant` and `tools/plants.py` here work over them, and prove no crate below. Such a library
has statements alone, as those have over which the gate proves; no verdict of the gate rests on what is copied. A crate that
differs, or stands on one that does, is left, and so is one that has its library."""

import fcntl
import importlib.machinery
import importlib.util
import os
import shutil
import sys

from prove import TOP, read_lines


def load_rt():
    """The kit's `rt` as a module, and the library that it stands on."""
    loader = importlib.machinery.SourceFileLoader("rt", os.path.realpath(shutil.which("rt")))
    spec = importlib.util.spec_from_loader("rt", loader)
    module = importlib.util.module_from_spec(spec)
    sys.modules["rt"] = module
    loader.exec_module(module)
    return module


def crates_of(rt, top):
    """The crates of a checkout by their names."""
    before, known = os.getcwd(), {}
    os.chdir(top)
    for name in read_lines():
        folder = f"{top}/crates/{name}"
        if folder not in known and os.path.isdir(folder):
            known[folder] = rt.rtlib.Crate(folder, top, known)
    os.chdir(before)
    return {it.name: it for it in known.values()}


def give(crate, other):
    """Copies a library of the same files, whose stamp is written last."""
    out = os.path.dirname(crate.rlib)
    shutil.rmtree(out, ignore_errors=True)
    shutil.copytree(other.rlib, crate.rlib)
    with open(f"{out}/stamp", "w", encoding="utf-8") as file:
        file.write(crate.stamp())


def main(words):
    if len(words) != 1 or not os.path.isfile(f"{words[0]}/crates.txt"):
        return __doc__
    rt = load_rt()
    # (stamps of all crates are made once)
    rt.STAMPS.seen = {}
    gate = os.path.realpath(words[0])
    with open(f"{gate}/.git/rt-ci.lock", "w") as lock:
        fcntl.flock(lock, fcntl.LOCK_SH)
        here, there = crates_of(rt, TOP), crates_of(rt, gate)
        fit = [(it, there[name]) for name, it in here.items() if name in there and not it.is_program and it.stamp() == there[name].stamp()]
        new = [it for it in fit if not it[0].is_built() and os.path.isfile(f"{it[1].rlib}/format")]
        for crate, other in new:
            give(crate, other)
    print(f"{len(new)} libraries copied; {len(here) - len(fit)} crates differ or are programs")
    return 0


if __name__ == "__main__":
    sys.exit(main(sys.argv[1:]))
