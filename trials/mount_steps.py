"""Random steps for mounting.py, each done on a mounted folder and on a plain one, where it has to be seen alike.

`in_a_file`: reads, writes, cuts, mapped writes, flushes and renames of one file that stays open. `in_a_tree`: rows of a small tree
are made, moved, removed, changed and looked at by their paths."""
import errno
import mmap
import os
import stat

MOST = 300000
PIECE = 40000
NAMES = ["a", "b", "c"]
PATHS = NAMES + [f"{one}/{other}" for one in NAMES for other in NAMES] + [f"a/a/{name}" for name in NAMES]


class Differs(Exception):
    pass


def seen(step, folder):
    """What a step gives, or the name of its error."""
    try:
        return step(folder)
    except OSError as why:
        return errno.errorcode.get(why.errno, why.errno)


def both(step, mounted, plain, what):
    """The same step on both."""
    found, wanted = seen(step, mounted), seen(step, plain)
    if found != wanted:
        raise Differs(f"{what}: {str(found)[:200]} and not {str(wanted)[:200]}")


class File:
    """A file that stays open."""

    def __init__(self, folder):
        self.folder, self.path = folder, f"{folder}/file"
        self.file = os.open(self.path, os.O_RDWR | os.O_CREAT | os.O_TRUNC, 0o644)

    def size(self):
        return os.fstat(self.file).st_size

    def change_map(self, chance_of_place, data):
        """Reads and changes a piece of the mapped file."""
        size = self.size()
        if not size:
            return None
        at = int(chance_of_place * size)
        data = data[: size - at]
        with mmap.mmap(self.file, size) as mapped:
            before = mapped[at : at + len(data)]
            mapped[at : at + len(data)] = data
            mapped.flush()
        return before

    def flush(self):
        os.fsync(self.file)
        os.posix_fadvise(self.file, 0, 0, os.POSIX_FADV_DONTNEED)

    def rename(self, suffix):
        path = f"{self.folder}/file{suffix}"
        os.rename(self.path, path)
        self.path = path
        os.close(self.file)
        self.file = os.open(path, os.O_RDWR)

    def whole(self):
        os.close(self.file)
        with open(self.path, "rb") as file:
            return file.read()


def file_step(chance, number):
    """Something to do with a file."""
    at, data = chance.randrange(MOST), chance.randbytes(chance.randrange(1, PIECE))
    place, suffix = chance.random(), str(number)
    return chance.choice([
        lambda it: os.pwrite(it.file, data, at), lambda it: os.pwrite(it.file, data, at), lambda it: os.pread(it.file, len(data), at),
        lambda it: os.pread(it.file, len(data), at), lambda it: os.ftruncate(it.file, at), lambda it: it.change_map(place, data[:500]),
        File.flush, lambda it: it.rename(suffix), lambda it: (it.size(), os.stat(it.path).st_size)])


def in_a_file(mounted, plain, chance, count):
    files = [File(it) for it in (mounted, plain)]
    for number in range(count):
        both(file_step(chance, number), *files, f"step {number} in a file")
    both(File.whole, *files, "the whole file")
    for it in files:
        os.remove(it.path)


def look(path):
    numbers = os.lstat(path)
    kind = stat.S_IFMT(numbers.st_mode)
    if stat.S_ISDIR(kind):
        return kind, numbers.st_mode, sorted(os.listdir(path))
    if stat.S_ISLNK(kind):
        return kind, os.readlink(path)
    with open(path, "rb") as file:
        return kind, numbers.st_mode, numbers.st_size, file.read()


def put(path, data):
    with open(path, "wb") as file:
        file.write(data)


def set_times(path, moment):
    os.utime(path, ns=(moment, moment), follow_symlinks=False)
    return os.lstat(path).st_mtime_ns


def tree_step(chance):
    """Something to do with a tree."""
    path, other = chance.choice(PATHS), chance.choice(PATHS)
    data, mode, moment = chance.randbytes(chance.randrange(3000)), chance.randrange(0o600, 0o1000), chance.randrange(10**18)
    return chance.choice([
        lambda it: os.mkdir(f"{it}/{path}"), lambda it: os.mkdir(f"{it}/{path}"), lambda it: put(f"{it}/{path}", data),
        lambda it: put(f"{it}/{path}", data), lambda it: os.rename(f"{it}/{path}", f"{it}/{other}"),
        lambda it: os.rename(f"{it}/{path}", f"{it}/{other}"), lambda it: os.remove(f"{it}/{path}"), lambda it: os.rmdir(f"{it}/{path}"),
        lambda it: os.symlink(other, f"{it}/{path}"), lambda it: os.chmod(f"{it}/{path}", mode), lambda it: set_times(f"{it}/{path}", moment),
        lambda it: os.truncate(f"{it}/{path}", len(data))])


def in_a_tree(mounted, plain, chance, count):
    for number in range(count):
        both(tree_step(chance), mounted, plain, f"step {number} in a tree")
        if not number % 20:
            for path in PATHS:
                both(lambda it, path=path: look(f"{it}/{path}"), mounted, plain, f"{path} after step {number} in a tree")
