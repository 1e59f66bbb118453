#!/usr/bin/env python3
"""The built program with a helper that flushes the disk of its folders at once, for the scripts that take a program.

    trials/kill.py --program trials/helped.py

`HELPED` in the environment is another program. Where no helper can be lent, as on a memory disk, it ends with 125."""
import os
import sys

from runs import BUILT, TOP

sys.path.append(f"{TOP}/wrapper")
import flushing
import running


def main(words):
    lent = flushing.lend(words[0]) if words and os.path.isdir(words[0]) else {}
    if not lent and words[2:3] != ["trial"]:
        print(f"no helper can be lent for {words[:1]}", file=sys.stderr)
        return 125
    return running.become(os.environ.get("HELPED", BUILT), words, lent)


if __name__ == "__main__":
    sys.exit(main(sys.argv[1:]))
