#!/usr/bin/env python3
"""Counts the words of sentences and the lines that are too long in README and docs.

    tools/prose.py [FILE..]

For each page: its bytes, its sentences, their mean and longest number of words, and how many lines pass 160 columns. It
ends with 1 where a mean is 22 or more, or a line too long. Tables, headings and examples have no sentences."""
import glob
import os
import re
import sys

TOP = os.path.dirname(os.path.dirname(os.path.abspath(__file__)))
COLUMNS, MEAN = 160, 22


def sentences(text):
    """The sentences of paragraphs and of items of lists."""
    text = re.sub(r"^(    |\||#).*$", "", text, flags=re.MULTILINE)
    text = re.sub(r"^\s*(- |\d+\. |> )", "\n\n", text, flags=re.MULTILINE)
    for paragraph in re.split(r"\n\s*\n", text):
        yield from (it for it in re.split(r"(?<=[.?!])\s+", " ".join(paragraph.split())) if re.search(r"\w", it))


def count(text):
    return [len(re.findall(r"\S*\w\S*", it)) for it in sentences(text)]


def main(names):
    wrong = 0
    for name in names or sorted(glob.glob(f"{TOP}/docs/*.md")) + [f"{TOP}/README.md"]:
        with open(name, encoding="utf-8") as file:
            text = file.read()
        counts = count(text) or [0]
        mean, wide = sum(counts) / len(counts), sum(len(line) > COLUMNS for line in text.splitlines())
        wrong += mean >= MEAN or wide > 0
        size = f"{os.path.basename(name):<16} {len(text.encode()):>7} bytes {len(counts):>5} sentences"
        print(f"{size}, mean {mean:4.1f}, longest {max(counts):>3}; {wide} lines too long")
    return 1 if wrong else 0


if __name__ == "__main__":
    sys.exit(main(sys.argv[1:]))
