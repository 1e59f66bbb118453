#!/usr/bin/env python3
"""Prints the map of crates, lowest first: what each does, what it stands on, where its definitions are.

    tools/crates.py [NAME..]

What a crate does is the first paragraph of its root file. It stands on the crates that crates.txt names, less those that
another of them stands on; crates of the kit are in brackets. Its definitions are the files of its folder specs.

Ends with 1 where crates.txt isn't what its headings say, and tells why. Its sections are numbered from 1 on. Each crate stands in
one of them, below those that name it, and in that section of docs/ARCHITECTURE.md. So none names one of a later section."""
import functools
import os
import re
import sys
import textwrap

import prove
from prove import TOP, read

read_lines = functools.cache(prove.read_lines)
HEADING = re.compile(r"#+ (\d+) (.*)")


@functools.cache
def all_below(name):
    """The crates that one stands on, those of the kit too."""
    below = set(read_lines().get(name, ()))
    return below.union(*map(all_below, below))


def sections(path):
    """The lines of a file by the numbered heading that they stand under, None for those under none."""
    found, at = {}, None
    for line in read(f"{TOP}/{path}").splitlines():
        heading = HEADING.fullmatch(line)
        at = heading.groups() if heading else None if line.startswith("## ") else at
        found.setdefault(at, []).append(line)
    return found


def wrong_order():
    """What isn't as it should be in crates.txt and in the sections of docs/ARCHITECTURE.md."""
    told, above, pages = [], set(), sections("docs/ARCHITECTURE.md")
    found = sections("crates.txt")
    numbers = [int(it[0]) for it in found if it]
    if numbers != list(range(1, len(numbers) + 1)):
        told.append(f"the sections are {numbers}")
    for heading, lines in found.items():
        page = "\n".join(pages.get(heading, ()))
        for name, libraries in filter(None, map(prove.read_line, lines)):
            told += [f"{name} stands in no section"] if not heading else []
            told += [f"{name} stands twice"] if name in above else []
            told += [f"{name} names {it}, which stands further down" for it in libraries if it in read_lines() and it not in above]
            told += [f"{name} isn't in that section of docs/ARCHITECTURE.md"] if heading and f"`{name}`" not in page else []
            above.add(name)
    return told


def stands_on(name, lines):
    """The libraries of a crate that no other of them stands on."""
    implied = set().union(*map(all_below, lines[name]))
    return [it if it in lines else f"[{it}]" for it in lines[name] if it not in implied]


def paragraph(name):
    """The first paragraph of a crate's root file."""
    root = next(it for it in ("lib.rt", "main.rt") if os.path.exists(f"{TOP}/crates/{name}/src/{it}"))
    text = re.match(r"(?://! ?.*\n)*", read(f"{TOP}/crates/{name}/src/{root}")).group()
    return re.sub(r"//! ?", "", text).strip().split("\n\n")[0]


def definitions(name):
    folder = f"{TOP}/crates/{name}/specs"
    return sorted(it[:-5] for it in os.listdir(folder) if it.endswith(".antt") and it != "Lib.antt") if os.path.isdir(folder) else []


def main(names):
    lines = read_lines()
    for name in names or lines:
        listed = {"on": stands_on(name, lines), "specs": definitions(name)}
        rows = [paragraph(name)] + [f"{what}: {', '.join(its)}" for what, its in listed.items() if its]
        print(name)
        for row in rows:
            print(textwrap.fill(" ".join(row.split()), 112, initial_indent="    ", subsequent_indent="    "))
    told = wrong_order()
    print("".join(f"crates.txt: {it}\n" for it in told), end="", file=sys.stderr)
    return 1 if told else 0


if __name__ == "__main__":
    sys.exit(main(sys.argv[1:]))
