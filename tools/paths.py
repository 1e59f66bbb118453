#!/usr/bin/env python3
"""Counts the paths of crates.txt, and prints what makes most of them.

    tools/paths.py [ROWS]

`rt` walks crates.txt path by path: a path leads from a crate down to one that it stands on, by way of those between, and
along each the files of the last are read. Printed is how many paths there are, then ROWS pairs, 20 if none are told: a
crate, a library that it names though another of its libraries stands on it, and how many paths fewer there were if it
took that library from the other, as docs/WORKING.md says."""
import functools
import os
import sys

sys.path.insert(0, os.path.dirname(os.path.abspath(__file__)))
from crates import all_below, read_lines


def main(rows=20):
    lines = read_lines()
    lines = {name: [it for it in libraries if it in lines] for name, libraries in lines.items()}

    @functools.cache
    def down(name):
        return 1 + sum(down(it) for it in lines[name])

    # The paths that end at a crate, from any above it.
    up = dict.fromkeys(lines, 1)
    for name in sorted(lines, key=lambda it: -len(all_below(it))):
        for it in lines[name]:
            up[it] += up[name]
    print(f"{sum(map(down, lines))} paths")
    implied = {name: set().union(*map(all_below, libraries)) for name, libraries in lines.items()}
    pairs = [(up[name] * down(it), name, it) for name in lines for it in lines[name] if it in implied[name]]
    for saved, name, library in sorted(pairs, reverse=True)[:rows]:
        print(f"{saved:9} {name}: {library}")


if __name__ == "__main__":
    sys.exit(main(*map(int, sys.argv[1:])))
