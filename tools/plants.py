#!/usr/bin/env python3
"""Tries the wrong bodies of a crate that are planted by hand, and tells what each came to.

    tools/plants.py NAME           all of crates/NAME/plants/*.edit
    tools/plants.py NAME EDIT..    those of them that are named, with or without .edit
    tools/plants.py                tries none, names those of all crates that can't be laid into the source, and counts all

An edit has the form of those in must-fail/: `file:`, `old:` and `new:`, a line each. One that the contracts let
through begins with a line `hole: SENTENCE`, which says what no clause says. Each is tried by `rt must-fail` in a copy
of the crate and of those that it stands on, so nothing here changes. Libraries that earlier checks here built of the same
text are taken over; `rt` builds the others first. A line is printed for each edit:

    NAME: refused by `GOAL` of PLACE    the first goal that stays open
    NAME: proved (HOLE)                 the crate is proved with it
    NAME: bad edit: WHY                 it can't be laid into the source, compiled or read
    NAME: not tried: WHY                nothing is known of it; run this again

and where that isn't what the edit expects, `NOT AS EXPECTED` with what was. Ends with 1 then, else with 0."""

import glob
import os
import re
import shutil
import subprocess
import sys
import tempfile

from prove import TOP, read, read_lines

HOLE = "hole: "
# How `rt must-fail` begins what it tells of an edit, and what that means.
RESULTS = {"refused": "refused", "NOT REFUSED": "proved", "BAD EDIT": "bad edit", "NOT TRIED": "not tried"}
TOLD = re.compile(r"must-fail \w+/(\S+)\.edit: (refused|NOT REFUSED|BAD EDIT|NOT TRIED)\b(.*)")

# The place and the name of an open goal in what `rt` says of it.
GOAL = re.compile(r"(?:\./)?(\S+?):\d+:\d+: .*?(?:error: |\()(`[^`]+`)")


def unfit(crate, edit):
    """Why an edit of the crate can't be laid into its source, or None."""
    path, old, texts = "", "", {}
    for line in read(edit).splitlines():
        kind, _, text = line.partition(": ")
        if kind == "file":
            path = text
            texts.setdefault(path, read(f"{crate}/{path}") if os.path.isfile(f"{crate}/{path}") else "")
        elif kind == "old":
            old = text
        elif line.startswith("new:"):
            count = texts[path].count(old) if path else 0
            if count != 1:
                return f"its old text is {count} times in {path or 'no file'}"
            texts[path] = texts[path].replace(old, text)
    return None if old else "it has no old text"


def name_unfit():
    """Names each edit of must-fail/ and plants/ that can't be laid into the source, and tells whether there is none."""
    edits = [it for kind in ("must-fail", "plants") for it in sorted(glob.glob(f"{TOP}/crates/*/{kind}/*.edit"))]
    found = {it: unfit(os.path.dirname(os.path.dirname(it)), it) for it in edits}
    lines = [f"{os.path.relpath(it, TOP)}: {why}" for it, why in found.items() if why]
    plants = [it for it in edits if os.path.basename(os.path.dirname(it)) == "plants"]
    holes = sum(read(it).startswith(HOLE) for it in plants)
    counts = f"{len(edits) - len(plants)} edits of the gate, {len(plants)} plants, {holes} of them holes"
    print("\n".join([*lines, f"{counts}; {len(lines)} can't be laid in"]))
    return not lines


def stands_on(name):
    """The crate and all crates that it stands on."""
    lines, found, left = read_lines(), set(), [name]
    while left:
        one = left.pop()
        if one in lines and one not in found:
            found.add(one)
            left += lines[one]
    return found


def link_or_copy(one, other):
    """Gives a file of a library a second name: `rt` never writes into one, and removes it before it makes it anew."""
    try:
        os.link(one, other)
    except OSError:
        shutil.copy2(one, other)


def lay_out(room, name, plants):
    """Makes a repository that has the crate, what it stands on, and the plants where the edits of the gate stand."""
    os.makedirs(f"{room}/.git")
    for file in ("crates.txt", "HANDLES"):
        shutil.copyfile(f"{TOP}/{file}", f"{room}/{file}")
    crates = stands_on(name)
    with open(f"{room}/crates.txt", "w", encoding="utf-8") as file:
        lines = read(f"{TOP}/crates.txt").splitlines()
        file.writelines(f"{line}\n" for line in lines if re.split(r"[\s:]", line)[0] in crates)
    for one in crates:
        for part in ("src", "specs", "proofs"):
            if os.path.isdir(f"{TOP}/crates/{one}/{part}"):
                shutil.copytree(f"{TOP}/crates/{one}/{part}", f"{room}/crates/{one}/{part}")
        if one != name and os.path.isdir(f"{TOP}/crates/{one}/out/rlib"):
            shutil.copytree(f"{TOP}/crates/{one}/out/rlib", f"{room}/crates/{one}/out/rlib", copy_function=link_or_copy)
    os.makedirs(f"{room}/crates/{name}/must-fail")
    for it in plants:
        shutil.copyfile(f"{TOP}/crates/{name}/plants/{it}.edit", f"{room}/crates/{name}/must-fail/{it}.edit")


def try_all(name, plants):
    """What each plant came to, with what `rt` says of it, and all that `rt` told."""
    with tempfile.TemporaryDirectory(prefix="plants-") as room:
        lay_out(room, name, plants)
        how = {"stdin": subprocess.DEVNULL, "stdout": subprocess.PIPE, "stderr": subprocess.STDOUT, "errors": "replace"}
        ran = subprocess.run(["rt", "must-fail", name], cwd=room, **how)
    return {it[1]: (RESULTS[it[2]], it[3]) for it in map(TOLD.search, ran.stdout.splitlines()) if it}, ran.stdout


def hole_of(name, plant):
    """The sentence of a plant that is expected to be let through, or None."""
    first = read(f"{TOP}/crates/{name}/plants/{plant}.edit").partition("\n")[0]
    return first.removeprefix(HOLE) if first.startswith(HOLE) else None


def line_of(plant, result, said, hole):
    """What is printed of a plant, and whether it came to what its edit expects."""
    text = said.partition(": ")[2].strip()
    goal = GOAL.search(text)
    by = f" by {goal[2]} of {goal[1]}" if goal else f" by {text}"
    shown = {"refused": by, "proved": f" ({hole or 'no hole was expected'})"}.get(result, f": {text}")
    wanted = "refused" if hole is None else "proved"
    return f"{plant}: {result}{shown}{'' if result == wanted else f'; NOT AS EXPECTED: {wanted}'}", result == wanted


def main(words):
    if not words:
        return 0 if name_unfit() else 1
    if words[0].startswith("-"):
        return __doc__
    name, named = words[0], [os.path.basename(it).removesuffix(".edit") for it in words[1:]]
    folder = f"{TOP}/crates/{name}/plants"
    there = sorted(os.path.basename(it).removesuffix(".edit") for it in glob.glob(f"{folder}/*.edit"))
    lacking = [it for it in named if it not in there]
    if lacking or not there:
        return f"plants.py: {folder} has no {' '.join(lacking) or 'edits'}"
    plants = named or there
    found, output = try_all(name, plants)
    if not found:
        # (the crate itself isn't proved, say)
        print(output, end="")
    is_well = True
    for plant in plants:
        result, said = found.get(plant, ("not tried", ": rt told nothing of it"))
        line, fits = line_of(plant, result, said, hole_of(name, plant))
        print(line)
        is_well &= fits
    return 0 if is_well else 1


if __name__ == "__main__":
    sys.exit(main(sys.argv[1:]))
