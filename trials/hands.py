#!/usr/bin/env python3
"""The cases of ./build and ./cryfs as a person meets them, each passed or failed.

Nothing is proved here: each case gets a tree of its own, in which the sources are a line each, `rt` is a script that
writes down how it was called and puts the program where the real one puts it, and the program is a script that prints
its words and each line of its input, or that of `hands_model.py`. The cases of `hands_real.py`, `hands_copies.py`, `hands_checks.py`,
`hands_looking.py`, `hands_removing.py` and `hands_updating.py`, and some of `hands_files.py`, `hands_state_copy.py` and `hands_listing.py`, take the program that was built here,
and then the one for AVX2, where this processor has that. `--program FILE` has them take FILE alone, and `--beside N` runs N cases at
once. Words of this script name the cases to run; `built` are those that take such a program, `unbuilt` the others. Without words all
are run. A case that finds no terminal here, or no module of python that it needs, is skipped, and counts as neither."""
import os
import signal
import subprocess
import sys
import tempfile
from concurrent.futures import ProcessPoolExecutor
from multiprocessing import get_context

import hands_asking
import hands_build
import hands_causes
import hands_checks
import hands_copies
import hands_files
import hands_flushing
import hands_golden
import hands_hints
import hands_listing
import hands_looking
import hands_mount
import hands_names
import hands_processor
import hands_real
import hands_removing
import hands_state_copy
import hands_terminal
import hands_updating
import hands_words
from hands_tree import BUILT, Skipped, Tree, programs_here

DEEP = 20000
CASES = (hands_build.CASES + hands_processor.CASES + hands_words.CASES + hands_hints.CASES + hands_terminal.CASES + hands_files.CASES + hands_asking.CASES +
         hands_state_copy.CASES + hands_causes.CASES + hands_names.CASES + hands_listing.CASES + hands_flushing.CASES +
         hands_mount.CASES)
REAL = (hands_real.CASES + hands_golden.CASES + hands_copies.CASES + hands_files.REAL + hands_checks.CASES + hands_removing.CASES +
        hands_updating.CASES + hands_state_copy.REAL + hands_listing.REAL + hands_looking.REAL)


def is_chosen(case, words):
    return not words or case.__name__ in words or ("built" if case in REAL + hands_mount.REAL else "unbuilt") in words


def passes(case, program=None, failed="FAILED"):
    """Whether a case passed; nothing where it can't be tried here."""
    name = case.__name__ if program in (None, BUILT) else f"{case.__name__} by {os.path.basename(program)}"
    # What a run that was killed still writes may keep a folder from going.
    with tempfile.TemporaryDirectory(ignore_cleanup_errors=True) as folder:
        tree = Tree(os.path.join(os.path.realpath(folder), "tree"), program)
        try:
            case(tree)
        except (AssertionError, subprocess.TimeoutExpired) as why:
            print(f"{failed} {name}: {why}", flush=True)
            return False
        except Skipped as why:
            print(f"skipped {name}: {why}", flush=True)
            return None
        finally:
            tree.end()
    print(f"passed {name}", flush=True)
    return True


def passes_once_or_twice(case, program):
    """The same, where one that failed is tried once more: some wait for a moment that a busy machine may miss."""
    result = passes(case, program, "once more")
    return passes(case, program) if result is False else result


def mount_cases():
    """The cases that mount, as far as they can be run here."""
    lacks = hands_mount.lacks()
    if lacks:
        print(f"skipped: {lacks}")
    return [] if lacks else hands_mount.MOUNTED


def real_mount_cases():
    """Those of them that take both programs that were built."""
    if hands_mount.lacks() or not os.path.exists(hands_mount.BUILT_MOUNT):
        print("skipped: the program that mounts isn't built")
        return []
    return hands_mount.REAL


def tried(chosen, beside):
    """What each case came to. So many are tried at once, each by a process that has its own signals and folder."""
    if beside < 2 or not chosen:
        return [passes_once_or_twice(*it) for it in chosen]
    with ProcessPoolExecutor(beside, get_context("fork")) as pool:
        return list(pool.map(passes_once_or_twice, *zip(*chosen)))


def taken(words, option):
    """The word behind an option, which goes with it from the words; nothing where it isn't there."""
    if option not in words:
        return None
    at = words.index(option)
    value = words[at + 1]
    del words[at : at + 2]
    return value


def main(words):
    # (a case that was cut short may leave folders that lie deep in each other, which go one below the other)
    sys.setrecursionlimit(DEEP)
    # What is started here has the system's own answer to signals, also where this was begun with some ignored.
    for it in (signal.SIGINT, signal.SIGHUP, signal.SIGQUIT):
        signal.signal(it, signal.default_int_handler if it == signal.SIGINT else signal.SIG_DFL)
    program, beside = taken(words, "--program"), int(taken(words, "--beside") or 1)
    programs = [os.path.abspath(program)] if program else programs_here()
    real = REAL + real_mount_cases()
    chosen = [(case, None) for case in CASES + mount_cases()] + [(case, it) for it in programs for case in real]
    chosen = [it for it in chosen if is_chosen(it[0], words)]
    told = tried(chosen, beside)
    if not programs:
        print(f"{len(real)} weren't run: the program isn't built")
    print(f"{told.count(True)} passed, {told.count(False)} failed, {told.count(None)} skipped")
    return 1 if False in told else 0


if __name__ == "__main__":
    sys.exit(main(sys.argv[1:]))
