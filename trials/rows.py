"""The rows of a folder of the host, for the scripts that copy it in and out: what an import of them asks, and what a copy that was
stopped may have left of them."""
import os

# Bytes of a file that one write of an import has, and no more than those of a line that writes.
PIECE, OF_LINE = 1 << 20, 1 << 18


def rows_of(folder):
    """The rows by their paths: None for a folder, a file's bytes, a link's target as text."""
    rows = {}
    for at, below, names in os.walk(folder):
        for path in (os.path.join(at, name) for name in below + names):
            rows[os.path.relpath(path, folder)] = row_of(path)
    return rows


def row_of(path):
    if os.path.islink(path):
        return os.readlink(path)
    if os.path.isdir(path):
        return None
    with open(path, "rb") as file:
        return file.read()


def make_rows(folder, rows):
    """Makes them in a new folder."""
    os.mkdir(folder)
    for path in in_order(rows):
        row, at = rows[path], os.path.join(folder, path)
        if row is None:
            os.mkdir(at)
        elif isinstance(row, str):
            os.symlink(row, at)
        else:
            with open(at, "xb") as file:
                file.write(row)
    return folder


def in_order(rows):
    """The paths as a copy comes to them: a folder before what is in it, by increasing names."""
    return sorted(rows, key=lambda path: os.fsencode(path).split(b"/"))


def asked(rows):
    """The lines that do what an import of them to the root asks, and after how many of them each of its commands is done."""
    lines, done = [], [0]
    for path in in_order(rows):
        for command in commands(f"/{path}", rows[path]):
            lines += command
            done.append(len(lines))
    return lines, done


def commands(path, row):
    """Each as the lines that do it: a piece of a file is too long for one line."""
    if row is None:
        return [[f"mkdir {path}"]]
    if isinstance(row, str):
        return [[f"symlink {row} {path}"]]
    pieces = [range(at, min(at + PIECE, len(row)), OF_LINE) for at in range(0, len(row), PIECE)]
    return [[f"mkfile {path}"]] + [[f"write {path} {at} {row[at : at + OF_LINE].hex()}" for at in piece] for piece in pieces]


def told(word, rows):
    """What a copy of all of them prints."""
    files = [row for row in rows.values() if isinstance(row, bytes)]
    folders = sum(row is None for row in rows.values())
    return f"{word} {folders} {len(files)} {len(rows) - folders - len(files)} {sum(map(len, files))}\n"


def is_part(rows, whole):
    """Whether each is a row of the whole; of a file's bytes some from the front on may be there."""
    return all(path in whole and is_begun(row, whole[path]) for path, row in rows.items())


def is_begun(row, whole):
    return whole.startswith(row) if isinstance(row, bytes) and isinstance(whole, bytes) else row == whole
