"""Folders of this machine, reached by descriptors: what is moved or exchanged while they are read leads nowhere else."""
import errno
import os
import resource
import stat

KINDS = {stat.S_IFDIR: b"d", stat.S_IFREG: b"f", stat.S_IFLNK: b"l"}
# What the system says where the name has gone, or something of another kind has it now.
GONE = (errno.ENOENT,)
OTHER = (errno.ELOOP, errno.ENOTDIR, errno.EISDIR, errno.EINVAL, errno.ENXIO, errno.EMLINK)
OTHER_NOW = "was exchanged for something else meanwhile"
# The folders that may be open, one in the other: a path of the file system has no more names.
OPEN_FOLDERS = 4096


class Exchanged(Exception):
    """What was listed has gone meanwhile, or something else stands there."""


def kind_of(numbers):
    """How a row of this kind is told; None where it is no file, folder or link."""
    return KINDS.get(stat.S_IFMT(numbers.st_mode))


def place_of(numbers):
    return numbers.st_dev, numbers.st_ino


def let_open_many():
    """Lets this process have as many open folders as the deepest tree has."""
    least, most = resource.getrlimit(resource.RLIMIT_NOFILE)
    wanted = OPEN_FOLDERS if most == resource.RLIM_INFINITY else min(OPEN_FOLDERS, most)
    if least not in (resource.RLIM_INFINITY,) and least < wanted:
        resource.setrlimit(resource.RLIMIT_NOFILE, (wanted, most))


class Folder:
    """An open folder, and the path by which it is told."""

    def __init__(self, path, file):
        self.path, self.file = path, file

    def path_of(self, name):
        return os.path.join(self.path, name)

    def rows(self):
        """Each name in it with its numbers, or with None where it has gone since."""
        with os.scandir(self.file) as entries:
            for entry in entries:
                try:
                    yield os.fsencode(entry.name), entry.stat(follow_symlinks=False)
                except FileNotFoundError:
                    yield os.fsencode(entry.name), None

    def open_row(self, name, flags):
        """Opens a row, which is no link, and waits for no pipe's other end."""
        try:
            return os.open(name, flags | os.O_RDONLY | os.O_NOFOLLOW | os.O_NONBLOCK | os.O_CLOEXEC, dir_fd=self.file)
        except OSError as why:
            raise changed(why) from None

    def open_as(self, name, numbers, flags):
        """Opens a row of the kind and, where it was listed so, of the place of these numbers. One that took its place counts as well, as a file does
        that was saved anew; and some file systems number a row anew."""
        file = self.open_row(name, flags)
        seen = os.fstat(file)
        if kind_of(seen) == kind_of(numbers) and (place_of(seen) == place_of(numbers) or self.is_at(name, seen)):
            return file
        os.close(file)
        raise Exchanged(OTHER_NOW)

    def is_at(self, name, numbers):
        """Whether what has these numbers has this name now."""
        try:
            return place_of(os.stat(name, dir_fd=self.file, follow_symlinks=False)) == place_of(numbers)
        except FileNotFoundError:
            return False

    def folder(self, name, numbers):
        """The folder of this name."""
        return Folder(self.path_of(name), self.open_as(name, numbers, os.O_DIRECTORY))

    def open_file(self, name, numbers):
        """The file of this name, to be read."""
        return os.fdopen(self.open_as(name, numbers, 0), "rb")

    def target(self, name):
        """The target of the link of this name."""
        try:
            return os.readlink(name, dir_fd=self.file)
        except OSError as why:
            raise changed(why) from None

    def is_one_of(self, places):
        return place_of(os.fstat(self.file)) in places

    def lies_in(self, places):
        """Whether it is one of these folders, or lies in one, wherever it was moved."""
        here = os.dup(self.file)
        while place_of(os.fstat(here)) not in places:
            above = os.open("..", os.O_PATH | os.O_DIRECTORY | os.O_CLOEXEC, dir_fd=here)
            is_top = place_of(os.fstat(above)) == place_of(os.fstat(here))
            os.close(here)
            here = above
            if is_top:
                os.close(here)
                return False
        os.close(here)
        return True

    def close(self):
        os.close(self.file)


def changed(why):
    """What a refusal of the system means for a row that was listed: that it was exchanged, or the refusal itself."""
    if why.errno in GONE:
        return Exchanged("has gone meanwhile")
    return Exchanged(OTHER_NOW) if why.errno in OTHER else why


def open_folder(path):
    """The folder at a path as the caller named it, where links are followed."""
    return Folder(path, os.open(path, os.O_RDONLY | os.O_DIRECTORY | os.O_CLOEXEC))
