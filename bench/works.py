"""What people do with a file system, for sessions.py: lines of a session, and the same on a mounted folder."""
import os
import random
from dataclasses import dataclass

DIRECTORIES = 16
PIECE = 4096
OF_SMALL = b"forty bytes that stand in a small file..\n"[:40]
# One line grows a file by no more.
MOST_GROWN = 64 << 20


@dataclass
class Work:
    """Something to do: its name, the lines that do it, what answers them well, and the same on a mounted folder. A size of
    blocks of its own gives it a file system of its own, on our side alone."""

    name: str
    lines: list
    is_well: object
    on_mount: object
    block_size: int = None
    counts_files: bool = False


def require(holds, why):
    if not holds:
        raise SystemExit(why)


def pieces(content, length):
    return [(at, content[at : at + length]) for at in range(0, len(content), length)]


def all_ok(answers):
    return all(answer == "ok" for answer in answers)


def big_works(arguments):
    """One big file: written, read back, written and read at random places, one byte changed."""
    chance = random.Random(7)
    content = bytearray(chance.randbytes(arguments.megabytes << 20))
    parts, first = pieces(content, arguments.line), [part.hex() for _, part in pieces(content, arguments.line)]
    places = [chance.randrange(len(content) - PIECE) for _ in range(arguments.random)]
    changes = [(at, chance.randbytes(PIECE)) for at in places]
    for at, change in changes:
        content[at : at + PIECE] = change

    def write(folder, changes):
        # (a new file is made by its first write)
        descriptor = os.open(f"{folder}/big", os.O_WRONLY | os.O_CREAT)
        for at, change in changes:
            os.pwrite(descriptor, change, at)
        os.close(descriptor)

    def read(folder, wanted, places, length):
        descriptor = os.open(f"{folder}/big", os.O_RDONLY)
        found = [os.pread(descriptor, length, at) for at in places]
        os.close(descriptor)
        require(found == wanted, "CryFS read something else than was written")

    size = f"{arguments.megabytes} MiB"
    starts, last = [at for at, _ in parts], [bytes(content[at : at + PIECE]) for at in places]
    wholes = [bytes.fromhex(part) for part in first]
    return [
        Work(f"{size} written by lines of {arguments.line:,} bytes",
             ["mkfile /big"] + [f"write /big {at} {part}" for at, part in zip(starts, first)], all_ok,
             lambda folder: write(folder, list(zip(starts, wholes)))),
        Work(f"{size} read back", [f"read /big {at} {arguments.line}" for at in starts],
             lambda answers: answers == [f"data {part}" for part in first],
             lambda folder: read(folder, wholes, starts, arguments.line)),
        Work(f"{arguments.random:,} random writes of 4 KiB", [f"write /big {at} {change.hex()}" for at, change in changes], all_ok,
             lambda folder: write(folder, changes)),
        Work(f"{arguments.random:,} random reads of 4 KiB", [f"read /big {at} {PIECE}" for at in places],
             lambda answers: answers == [f"data {part.hex()}" for part in last],
             lambda folder: read(folder, last, places, PIECE)),
        Work(f"one byte changed in {size}", [f"write /big {len(content) // 2} 00"], all_ok,
             lambda folder: write(folder, [(len(content) // 2, b"\0")]), counts_files=True),
    ]


def small_works(count, over=DIRECTORIES):
    """Many small files over some directories: created, listed, stat-ed, read, renamed, deleted."""
    top, number, where = f"/s{count}-{over}", f"{count:,} files", "" if over > 1 else " in one directory"
    directories = [f"{top}/d{at}" for at in range(over)]
    files = [f"{directories[at % over]}/f{at}" for at in range(count)]
    moved = [path.replace("/f", "/g") for path in files]

    def create(folder):
        for path in [top, *directories]:
            os.mkdir(folder + path)
        for path in files:
            with open(folder + path, "xb") as file:
                file.write(OF_SMALL)

    def read(folder):
        for path in files:
            with open(folder + path, "rb") as file:
                require(file.read() == OF_SMALL, "CryFS read something else than was written")

    def is_list(answers):
        return sum(int(answer.split()[1]) for answer in answers) == count

    makes = [line for path in files for line in (f"mkfile {path}", f"write {path} 0 {OF_SMALL.hex()}")]
    return [
        Work(f"{number} of 40 bytes created{where}", [f"mkdir {path}" for path in [top, *directories]] + makes, all_ok, create),
        Work(f"{number}: {over} directories listed", [f"ls {path}" for path in directories], is_list,
             lambda folder: [os.listdir(folder + path) for path in directories]),
        Work(f"{number}: each stat-ed", [f"stat {path}" for path in files],
             lambda answers: all(answer.startswith("stat f 644 0 0 40 ") for answer in answers),
             lambda folder: [os.stat(folder + path) for path in files]),
        Work(f"{number}: each read", [f"read {path} 0 100" for path in files],
             lambda answers: all(answer == f"data {OF_SMALL.hex()}" for answer in answers), read),
        Work(f"{number}: each renamed{where}", [f"mv {one} {other}" for one, other in zip(files, moved)], all_ok,
             lambda folder: [os.rename(folder + one, folder + other) for one, other in zip(files, moved)]),
        Work(f"{number}: each deleted", [f"rm {path}" for path in moved], all_ok,
             lambda folder: [os.remove(folder + path) for path in moved]),
    ]


def wall_works(share):
    """What grew faster than its size once, at this share of the sizes where it did."""
    def sized(whole):
        return max(2, int(whole * share))

    return [
        *removal_works(sized(1024)), *crowd_works(sized(5000)), *depth_works(sized(240)), *entry_works(sized(30_000)),
        *block_works(sized(16 << 20), 1024), growth_work(sized(2 << 20), 128),
    ]


def removal_works(megabytes):
    """A big file, made of zeros, goes."""
    size = megabytes << 20
    steps = [*range(MOST_GROWN, size, MOST_GROWN), size]

    def grow(folder):
        for step in steps:
            with open(f"{folder}/zeros", "ab") as file:
                file.truncate(step)

    return [
        Work(f"{megabytes:,} MiB of zeros made", ["mkfile /zeros"] + [f"truncate /zeros {step}" for step in steps], all_ok, grow),
        Work(f"{megabytes:,} MiB removed", ["rm /zeros"], all_ok, lambda folder: os.remove(f"{folder}/zeros")),
    ]


def crowd_works(count):
    """Small files in one directory: created, renamed."""
    return [work for work in small_works(count, 1) if "created" in work.name or "renamed" in work.name]


def depth_works(deepest):
    """Directories in one another, and what stands at half of the way and at the end."""
    paths = ["/deep" + "/d" * depth for depth in range(deepest + 1)]
    works, made = [], 0
    for depth in (deepest // 2, deepest):
        new, path = paths[made : depth + 1], paths[depth]
        works += [
            Work(f"directories in one another made, to {depth:,}", [f"mkdir {at}" for at in new], all_ok,
                 lambda folder, new=new: [os.mkdir(folder + at) for at in new]),
            Work(f"100 stat-s at a depth of {depth:,}", [f"stat {path}"] * 100, all_stats,
                 lambda folder, path=path: [os.stat(folder + path) for _ in range(100)]),
        ]
        made = depth + 1
    return works


def entry_works(most):
    """Empty files in one directory, and what is done among half of them and among all."""
    chance, works = random.Random(7), [Work("a directory made", ["mkdir /many"], all_ok, lambda folder: os.mkdir(f"{folder}/many"))]
    for first, last in ((0, most // 2), (most // 2, most)):
        some = [f"/many/f{chance.randrange(last)}" for _ in range(100)]
        works += [
            empty_files(f"empty files in one directory made, to {last:,}", [f"/many/f{at}" for at in range(first, last)]),
            Work(f"100 stat-s among {last:,} entries", [f"stat {path}" for path in some], all_stats,
                 lambda folder, some=some: [os.stat(folder + path) for path in some]),
            empty_files(f"100 files made among {last:,} entries", [f"/many/g{last}-{at}" for at in range(100)]),
        ]
    return works


def empty_files(name, paths):
    return Work(name, [f"mkfile {path}" for path in paths], all_ok, lambda folder: [open(folder + path, "xb").close() for path in paths])


def block_works(size, block_size):
    """A file in small blocks."""
    content = random.Random(7).randbytes(size)
    lines = ["mkfile /big"] + [f"write /big {at} {part.hex()}" for at, part in pieces(content, 500_000)]
    return [Work(f"{size:,} bytes written in blocks of {block_size:,} bytes", lines, all_ok, None, block_size)]


def growth_work(size, block_size):
    """A file that is grown in the smallest blocks by one line."""
    return Work(f"a file grown to {size:,} bytes in blocks of {block_size:,} bytes", ["mkfile /zeros", f"truncate /zeros {size}"], all_ok,
                None, block_size)


def all_stats(answers):
    return all(answer.startswith("stat ") for answer in answers)
