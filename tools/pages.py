#!/usr/bin/env python3
"""Tells which crates have no page, and what the pages name that isn't there any more.

    tools/pages.py [NAME..]

A page is a crate's README.md. Each word that stands in backticks there has to be one of the crate's sources, or else of
another crate's, of the documents or of the programs beside them. Examples aren't looked at. It ends with 1 where a page is
missing, names something that is nowhere, or has a line of more than 160 columns."""
import glob
import os
import re
import sys

TOP = os.path.dirname(os.path.dirname(os.path.abspath(__file__)))
COLUMNS = 160
WORD = re.compile(r"[A-Za-z_][A-Za-z_0-9]*")
BESIDE = ("docs/*.md", "README.md", "bench/*", "trials/*", "tools/*", "wrapper/*", "build", "cryfs", "crates/*/proofs/*.antt")


def words_of(paths):
    """The words of files and of their names."""
    found = set()
    for path in filter(os.path.isfile, paths):
        with open(path, encoding="utf-8", errors="ignore") as file:
            found.update(WORD.findall(file.read()), WORD.findall(os.path.relpath(path, TOP)))
    return found


def named(text):
    """The words in backticks, but for examples."""
    text = re.sub(r"```.*?```|^    .*$", "", text, flags=re.DOTALL | re.MULTILINE)
    return {word for span in re.findall(r"`([^`]+)`", text) for word in WORD.findall(span)}


def main(names):
    crates = sorted(os.listdir(f"{TOP}/crates"))
    parts = ("src/**/*.rt", "specs/*.antt", "must-fail/*", "plants/*")
    known = words_of(path for part in parts for path in glob.glob(f"{TOP}/crates/*/{part}", recursive=True))
    known |= words_of(path for part in BESIDE for path in glob.glob(f"{TOP}/{part}")) | set(crates)
    wrong = 0
    for name in names or crates:
        page = f"{TOP}/crates/{name}/README.md"
        if not os.path.exists(page):
            print(f"{name}: no page")
            wrong += 1
            continue
        with open(page, encoding="utf-8") as file:
            text = file.read()
        told = [f"`{word}` is nowhere" for word in sorted(named(text) - known)]
        told += [f"line {at} has {len(line)} columns" for at, line in enumerate(text.splitlines(), 1) if len(line) > COLUMNS]
        wrong += len(told)
        print("".join(f"{name}: {it}\n" for it in told), end="")
    return 1 if wrong else 0


if __name__ == "__main__":
    sys.exit(main(sys.argv[1:]))
