#!/usr/bin/env python3
"""Looks up each name of a crate or a module in the sources, without a prover.

    tools/names.py

A chain `Rattle.CRATE.specs.WORD..` begins with the crate itself or with one that crates.txt lets it name. Each next word is a
crate that is handed on there, or a file. A path of `use` begins with such a crate, whose root file has the next word. Each file
of a crate has its line `mod` and each such line its file, and no two modules differ in the case of their letters alone. What
isn't so is printed, and it ends with 1 then. It takes two seconds; a prover tells the same of one crate after minutes."""
import functools
import os
import re
import sys

from prove import TOP, read, read_lines

WORD = r"[A-Za-z_][A-Za-z_0-9]*"
CHAIN = re.compile(r"\bRattle((?:\.[^\s{}();,.]+)+)")
USE = re.compile(r"^[ \t]*((?:pub(?:\([a-z]+\))? )?)use ([^;]*);", re.MULTILINE)
MOD = re.compile(rf"^\s*(?:pub(?:\([a-z]+\))? )?mod ({WORD})", re.MULTILINE)
HANDED = re.compile(r"^pub use Rattle\.(\S+) as (\S+)", re.MULTILINE)
# What a path begins with that leads to no crate of crates.txt.
NEAR = ("crate", "self", "super", "std", "core", "alloc")
ROOTS = {"src": ("lib", ".rt"), "specs": ("Lib", ".antt"), "proofs": ("Lib", ".antt")}


def parts_of(text):
    """The parts of a text between commas that stand in no braces."""
    found, depth, at = [], 0, 0
    for here, it in enumerate(text):
        depth += (it == "{") - (it == "}")
        if it == "," and not depth:
            found.append(text[at:here])
            at = here + 1
    return [it.strip() for it in (*found, text[at:]) if it.strip()]


def paths_of(tree, before=()):
    """The paths of a tree of `use`, each as its words; an `as` stays with the last."""
    for part in parts_of(" ".join(tree.split())):
        head, brace, rest = part.partition("{")
        words = (*before, *(it for it in head.strip().split("::") if it))
        if brace:
            yield from paths_of(rest.rstrip()[:-1], words)
        else:
            yield words


def name_of(path):
    """The name that a path gives; `a::{self}` gives a."""
    last = path[-2] if path[-1] == "self" and len(path) > 1 else path[-1]
    return last.split(" as ")[-1]


class Crate:
    """The files of a crate, and the crates that it hands on."""

    def __init__(self, name, libraries):
        self.name, self.libraries, self.files = name, libraries, {}
        top = f"{TOP}/crates/{name}"
        for part, (_, end) in ROOTS.items():
            for folder, _, names in os.walk(f"{top}/{part}"):
                for it in filter(lambda it: it.endswith(end), names):
                    self.files[os.path.relpath(f"{folder}/{it}", top)] = read(f"{folder}/{it}")
        self.root = self.files.get("src/lib.rt", self.files.get("src/main.rt", ""))
        self.modules = set(MOD.findall(self.root))
        self.handed = {kind: {as_: chain.split(".") for chain, as_ in HANDED.findall(self.files.get(f"{kind}/Lib.antt", ""))}
                       for kind in ("specs", "proofs")}
        public = [path for mark, tree in USE.findall(self.root) if mark for path in paths_of(tree)]
        self.used = {name_of(it): it for it in public if it[0] not in self.modules and it[0] not in NEAR}

    def may_name(self, word):
        return word == self.name or word in self.libraries

    def has(self, path):
        """Whether there is a file or a folder of this path, which has no ending."""
        return any(it.startswith((f"{path}.", f"{path}/")) for it in self.files)


@functools.cache
def crates():
    return {name: Crate(name, libraries) for name, libraries in read_lines().items()}


def is_of_kit(word):
    return word == "std" or (word not in crates() and any(word in it.libraries for it in crates().values()))


def used_crate(name, word):
    """The crate that `NAME::WORD` is, where the root file of NAME hands one on."""
    path = crates()[name].used.get(word)
    here = path[0] if path and path[0] in crates() else None
    for it in path[1:] if here else ():
        here = here and used_crate(here, it.split(" as ")[0])
    return here


def handed_crate(name, kind, word):
    """The crate whose words or lemmas `Rattle.NAME.KIND.WORD` are, `std` for the kit's, or None."""
    chain = crates()[name].handed[kind].get(word)
    if not chain:
        return used_crate(name, word)
    if is_of_kit(chain[0]):
        return "std"
    here = chain[0] if chain[0] in crates() else None
    for it in chain[2:]:
        here = here and handed_crate(here, chain[1], it)
    return here


def wrong_chain(crate, words):
    """Why a chain of words behind `Rattle` leads nowhere, or None."""
    if is_of_kit(words[0]):
        return None
    if not crate.may_name(words[0]) or words[0] not in crates():
        return f"{words[0]} isn't named by {crate.name} in crates.txt"
    home, kind, left = words[0], words[1] if len(words) > 1 else "", words[2:]
    if kind not in ("specs", "proofs"):
        return f"{home} has no {kind}" if kind else None
    while left:
        below = handed_crate(home, kind, left[0])
        if below == "std":
            return None
        if not below:
            break
        home, left = below, left[1:]
    return wrong_module(crates()[home], kind, left) if left else None


def wrong_module(home, kind, words):
    """Why the first of these words is no module of the crate, or None."""
    if words[0] in home.handed[kind]:
        return f"what {home.name} hands on as {words[0]} isn't there"
    if words[0] in ("declared", "contracts"):
        return None if len(words) < 2 or home.has(f"src/{words[1]}") else f"{home.name} has no src/{words[1]}"
    # (`rattle` makes a module of lemmas for each file of code)
    is_there = home.has(f"{kind}/{words[0]}") or (kind == "proofs" and home.has(f"src/{words[0]}"))
    return None if is_there else f"{home.name} has no {kind}/{words[0]}"


def wrong_path(crate, path, near):
    """Why a path of `use` leads nowhere, or None; `near` are modules that its file declares."""
    if path[0] in NEAR or path[0] in near:
        return None
    if not crate.may_name(path[0]):
        return f"{path[0]} isn't named by {crate.name} in crates.txt"
    word = path[1].split(" as ")[0] if len(path) > 1 else "self"
    if path[0] not in crates() or word == "self" or re.search(rf"\b{word}\b", crates()[path[0]].root):
        return None
    return f"the root file of {path[0]} has no {word}"


def wrong_in(crate, text, is_code):
    """What is wrong with the names of a file, and how many were looked up."""
    chains = [it.group() for it in CHAIN.finditer(text)]
    told = [f"{it}: {why}" for it in chains if (why := wrong_chain(crate, it.split(".")[1:]))]
    paths = [path for _, tree in USE.findall(text) for path in paths_of(tree)] if is_code else []
    near, names = set(MOD.findall(text)), [name_of(it) for it in paths]
    told += [f"use {'::'.join(it)}: {why}" for it in paths if (why := wrong_path(crate, it, near))]
    if "mod tests" not in text:
        told += [f"{it} is imported twice" for it in sorted(set(names)) if names.count(it) > 1]
    return told, len(chains) + len(paths)


def wrong_modules(crate):
    """What is wrong with the modules of a crate: their lines `mod`, and their letters."""
    told, seen = [], {}
    for part, (root, end) in ROOTS.items():
        heads = {it.split("/")[1].removesuffix(end) for it in crate.files if it.startswith(f"{part}/")}
        files = {it for it in heads if f"{part}/{it}{end}" in crate.files} - {root, "main"}
        lines = MOD.findall(crate.root if part == "src" else crate.files.get(f"{part}/Lib.antt", ""))
        if lines or f"{part}/{root}{end}" in crate.files:
            told += [f"{part}: mod {it} has no file" for it in lines if it not in heads]
            told += [f"{part}: {it} has no line `mod`" for it in sorted(files - set(lines))]
            told += [f"{part}: mod {it} twice" for it in sorted(set(lines)) if lines.count(it) > 1]
        for it in files if part != "specs" else ():
            if seen.setdefault(it.lower(), it) != it:
                told.append(f"{it} and {seen[it.lower()]} of src and proofs differ in case alone")
    return told


def main():
    here = {it for it in os.listdir(f"{TOP}/crates") if os.path.isdir(f"{TOP}/crates/{it}/src")}
    told = [f"crates.txt: {it} has no folder" for it in read_lines() if it not in here]
    told += [f"crates/{it} isn't in crates.txt" for it in sorted(here - set(read_lines()))]
    count = 0
    for name, crate in crates().items():
        for path, text in sorted(crate.files.items()):
            found, more = wrong_in(crate, text, path.endswith(".rt"))
            told += [f"{name}/{path}: {it}" for it in found]
            count += more
        told += [f"{name}/{it}" for it in wrong_modules(crate)]
    print("\n".join([*told, f"{count} names, {len(told)} wrong"]))
    return 1 if told else 0


if __name__ == "__main__":
    sys.exit(main())
