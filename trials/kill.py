#!/usr/bin/env python3
"""Stops the built program at random times on real folders, and looks at what is there afterwards.

    kill       (the default) in the midst of sessions: the next one finds the tree of a kept point
    rollback   after a kill the folder of blocks is put back to an older copy, which has to be noticed
    full       the folder of blocks, then that of the record, has a full disk: sync answers the fault, all lines before and after
               it are answered as ever, and once there is room a session finds the tree of a kept point
    copies     in the midst of `import` and `export`
    checks     in the midst of `check` and `check --all`
    migrate    in the midst of `migrate`, on the file system that a program of before block format 2 made
    updates    in the midst of `./cryfs update` of this checkout, with its program

What each looks for is told by its class, in the files kill_*.py. What is compared is what `trial`, the plain tree in memory, answers
to the lines that count. Times in `stat` aren't: each run has its own. Every run prints its seed; the folders of a run that failed
are kept.
"""
import argparse
import random
import shutil
import sys
import time

from kill_checks import Checks
from kill_copies import Copies
from kill_migrate import Migrations
from kill_sessions import RollBacks, Sessions, fill_both
from kill_updates import Updates
from killing import Lost
from runs import BUILT

KINDS = {"kill": Sessions, "rollback": RollBacks, "full": None, "copies": Copies, "checks": Checks, "migrate": Migrations, "updates": Updates}


def repeat(given):
    """Does it on one file system after another until the kills or the minutes are used up."""
    kind, chance, counts = KINDS[given.kind], random.Random(given.seed), {"kills": 0, "file systems": 0}
    end = time.monotonic() + 60 * given.minutes
    while counts["kills"] < given.count and time.monotonic() < end:
        one = kind(given, chance, counts)
        counts["file systems"] += 1
        until = min(counts["kills"] + kind.KILLS_OF_ONE, given.count)
        while counts["kills"] < until and time.monotonic() < end:
            try:
                one.once()
            except Lost:
                print(f"the folders are kept in {one.top}")
                raise
            if kind.KILLS_OF_ONE == 1:
                break
        shutil.rmtree(one.top)
    print(f"{given.kind} at {given.block_size} bytes a block: nothing was lost in " + ", ".join(f"{count} {what}" for what, count in counts.items()))


def main():
    parser = argparse.ArgumentParser(description=__doc__, formatter_class=argparse.RawDescriptionHelpFormatter)
    parser.add_argument("kind", nargs="?", default="kill", choices=KINDS)
    parser.add_argument("--count", type=int, default=100, help="kills (100)")
    parser.add_argument("--minutes", type=float, default=30, help="the most time it may take (30)")
    parser.add_argument("--block-size", type=int, default=16384)
    parser.add_argument("--seed", type=int, default=random.randrange(1 << 32))
    parser.add_argument("--folder", help="where the folders are made (the system's folder for temporary files)")
    parser.add_argument("--program", default=BUILT)
    given = parser.parse_args()
    print(f"seed {given.seed}", flush=True)
    try:
        fill_both(given) if given.kind == "full" else repeat(given)
    except Lost as why:
        print(f"FAILED: {why}")
        return 1
    return 0


if __name__ == "__main__":
    sys.exit(main())
