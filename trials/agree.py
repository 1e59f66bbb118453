#!/usr/bin/env python3
"""Compares sessions of the built program with `trial`, the plain tree in memory, times and all.

Each script is of random lines. After each line that may change a directory, `stat` is asked of every path. The same
lines go to `trial` and to a session over new folders, and each answer has to be the same; then a second session looks
once more. A run's own moment is told apart by a row made in its first line, and written as `now`. The times that the
lines set are of the years 1970 to 2001, so they are never taken for it. A script that differs is printed, with its seed.

Ends with 1 where any differed.
"""
import argparse
import random
import sys

from runs import BUILT, QUICK_KEY, Folders, Program

NAMES = ["a", "b"]
PATHS = [f"/{one}" for one in NAMES] + [f"/{one}/{other}" for one in NAMES for other in NAMES]
PATHS += [f"/a/b/{name}" for name in NAMES]
# Made in the first line: its times are the run's moment.
CLOCK = "/now"
LOOK = [f"stat {path}" for path in ["/", *PATHS]]


def some_line(chance):
    path, other = chance.choice(PATHS), chance.choice(PATHS)
    moments = " ".join(f"{chance.randrange(10**9)}.{chance.randrange(10**9):09d}" for _ in range(2))
    return chance.choice([
        f"mkdir {path}", f"mkdir {path}", f"mkdir {path}", f"mkfile {path}", f"mkfile {path}", f"symlink to {path}",
        f"rm {path}", f"rmdir {path}", f"mv {path} {other}", f"mv {path} {other}", f"mv {path} {path}",
        f"write {path} {chance.randrange(300)} {chance.randbytes(chance.randrange(200)).hex() or '-'}",
        f"truncate {path} {chance.randrange(400)}", f"chmod {path} {chance.randrange(512):o}",
        f"chown {path} {chance.randrange(9)} {chance.randrange(9)}", f"utime {path} {moments}", "sync", f"ls {path}"])


def some_script(chance, length):
    lines = [f"mkfile {CLOCK}", f"stat {CLOCK}"]
    for _ in range(length):
        lines += [some_line(chance), *LOOK]
    return lines


def moment_of(answers):
    """The moment of a run, by the attributes of the row that its first line made."""
    return answers[1].split()[-1]


def told_alike(answers, moment):
    return [answer.replace(moment, "now") for answer in answers]


def differ(program, script, block_size):
    """How a session of the script, or a second one that looks, differs from `trial`; None where neither does."""
    plain = program.trial(script)
    wanted = told_alike(plain, moment_of(plain))
    folders = Folders()
    try:
        program.create(folders, "--blocksize", str(block_size), *QUICK_KEY)
        asked = program.session(folders, script)
        if asked.status or len(asked.answers) != len(script):
            return f"the session ended with {asked.status} and {len(asked.answers)} answers: {asked.errors}"
        moment = moment_of(asked.answers)
        for line, want, found in zip(script, wanted, told_alike(asked.answers, moment)):
            if want != found:
                return f"{line}: {found} and not {want}"
        again = program.session(folders, LOOK)
        if told_alike(again.answers, moment) != wanted[-len(LOOK):]:
            return "a later session finds other attributes"
        return None
    finally:
        folders.remove()


def main():
    parser = argparse.ArgumentParser(description=__doc__, formatter_class=argparse.RawDescriptionHelpFormatter)
    parser.add_argument("--scripts", type=int, default=1000)
    parser.add_argument("--lines", type=int, default=30, help="random lines in each script")
    parser.add_argument("--seed", type=int, default=1)
    parser.add_argument("--program", default=BUILT)
    asked = parser.parse_args()
    program, differing = Program(asked.program), 0
    for seed in range(asked.seed, asked.seed + asked.scripts):
        chance = random.Random(seed)
        script = some_script(chance, asked.lines)
        how = differ(program, script, chance.choice([128, 256, 1024]))
        if how:
            differing += 1
            print(f"seed {seed}: {how}", *script, sep="\n    ")
    print(f"{asked.scripts} scripts of {asked.lines} lines, each with {len(LOOK)} looks: {differing} differ")
    return 1 if differing else 0


if __name__ == "__main__":
    sys.exit(main())
