"""What programs do with a folder, for mounting.py: each try gets an empty folder and gives what was seen there, or raises OSError.

Each is done on a plain folder too, and has to be seen alike. REFUSED names those that the mount refuses."""
import errno
import fcntl
import hashlib
import mmap
import os
import stat
import subprocess

TOP = os.path.dirname(os.path.dirname(os.path.abspath(__file__)))


def run(*words, cwd=None):
    ended = subprocess.run(words, cwd=cwd, stdout=subprocess.PIPE, stderr=subprocess.STDOUT, check=False)
    return ended.returncode, ended.stdout.decode(errors="replace")


def done(*words, cwd=None):
    status, said = run(*words, cwd=cwd)
    if status:
        raise OSError(errno.EIO, f"{words} ended with {status}: {said[-300:]}")
    return said


def put(path, text, how="w"):
    with open(path, how, encoding="utf-8") as file:
        file.write(text)


def got(path):
    with open(path, encoding="utf-8") as file:
        return file.read()


def rows(folder, told=lambda _: ()):
    """Each path below a folder, with its kind, its contents, and what else is told by its numbers."""
    found = {}
    for above, folders, files in os.walk(folder):
        for name in folders + files:
            path = os.path.join(above, name)
            numbers = os.lstat(path)
            found[os.path.relpath(path, folder)] = (stat.S_IFMT(numbers.st_mode), content(path, numbers), *told(numbers))
    return found


def content(path, numbers):
    if stat.S_ISLNK(numbers.st_mode):
        return os.readlink(path)
    if stat.S_ISREG(numbers.st_mode):
        with open(path, "rb") as file:
            return hashlib.sha256(file.read()).hexdigest()
    return ""


def folders_are_copied(folder):
    done("cp", "-r", f"{TOP}/docs", f"{folder}/docs")
    done("diff", "-r", f"{TOP}/docs", f"{folder}/docs")
    return rows(folder)


def modes_and_times_are_copied(folder):
    done("cp", "-a", f"{TOP}/wrapper", f"{TOP}/cryfs", folder)
    return rows(folder, lambda it: (it.st_mode, it.st_mtime_ns))


def a_directory_moves(folder):
    os.makedirs(f"{folder}/a/b/c")
    put(f"{folder}/a/b/f", "x")
    os.rename(f"{folder}/a", f"{folder}/q")
    return rows(folder), os.path.exists(f"{folder}/a")


def a_directory_above_an_open_file_moves(folder):
    os.makedirs(f"{folder}/a/b")
    put(f"{folder}/a/b/f", "one")
    with open(f"{folder}/a/b/f", "r+b", buffering=0) as file:
        os.rename(f"{folder}/a", f"{folder}/q")
        first = file.read(3)
        file.write(b" two")
    return first, got(f"{folder}/q/b/f")


def what_is_removed_while_open_works_on(folder):
    put(f"{folder}/f", "one")
    with open(f"{folder}/f", "r+b", buffering=0) as file:
        os.remove(f"{folder}/f")
        gone = os.path.exists(f"{folder}/f")
        file.write(b"three")
        file.seek(0)
        return gone, file.read(), os.fstat(file.fileno()).st_size


def no_name_is_left_of_it(folder):
    os.mkdir(f"{folder}/d")
    put(f"{folder}/d/f", "one")
    with open(f"{folder}/d/f", "rb"):
        os.remove(f"{folder}/d/f")
        open_names = os.listdir(folder)
    os.rmdir(f"{folder}/d")
    return open_names, os.listdir(folder)


def a_rename_over_an_open_file(folder):
    put(f"{folder}/old", "old")
    put(f"{folder}/new", "new")
    with open(f"{folder}/old", "rb", buffering=0) as file:
        os.rename(f"{folder}/new", f"{folder}/old")
        first = file.read()
    return first, got(f"{folder}/old"), os.listdir(folder)


def an_editor_saves(folder):
    put(f"{folder}/text", "one")
    file = os.open(f"{folder}/text.new", os.O_WRONLY | os.O_CREAT | os.O_EXCL, 0o600)
    os.write(file, b"two")
    os.fsync(file)
    os.close(file)
    os.rename(f"{folder}/text.new", f"{folder}/text")
    above = os.open(folder, os.O_RDONLY)
    os.fsync(above)
    os.close(above)
    return rows(folder, lambda it: (it.st_mode,))


def links_are_followed(folder):
    os.mkdir(f"{folder}/d")
    put(f"{folder}/d/f", "one")
    os.symlink("d/f", f"{folder}/l")
    os.symlink("nowhere", f"{folder}/n")
    return rows(folder), got(f"{folder}/l"), os.path.exists(f"{folder}/n")


def a_hard_link(folder):
    put(f"{folder}/f", "one")
    os.link(f"{folder}/f", f"{folder}/g")


def a_named_pipe(folder):
    os.mkfifo(f"{folder}/p")


def a_full_directory_stays(folder):
    os.mkdir(f"{folder}/d")
    put(f"{folder}/d/f", "one")
    os.rmdir(f"{folder}/d")


def a_file_is_cut_and_grows(folder):
    put(f"{folder}/f", "0123456789")
    os.truncate(f"{folder}/f", 100000)
    long = os.stat(f"{folder}/f").st_size
    os.truncate(f"{folder}/f", 5)
    return long, got(f"{folder}/f")


def lines_are_appended(folder):
    for text in ("one\n", "two\n"):
        put(f"{folder}/f", text, "a")
    return got(f"{folder}/f")


def times_are_set(folder):
    put(f"{folder}/f", "one")
    os.utime(f"{folder}/f", ns=(10**18 + 7, 10**18 + 9))
    numbers = os.stat(f"{folder}/f")
    return numbers.st_atime_ns, numbers.st_mtime_ns


def a_change_has_its_own_moment(folder):
    put(f"{folder}/f", "one")
    os.utime(f"{folder}/f", ns=(10**18, 10**18))
    before = os.stat(f"{folder}/f").st_ctime_ns
    put(f"{folder}/f", "two", "a")
    numbers = os.stat(f"{folder}/f")
    return numbers.st_mtime_ns > 10**18, numbers.st_ctime_ns >= before


def modes_and_owners_are_set(folder):
    put(f"{folder}/f", "one")
    os.chmod(f"{folder}/f", 0o640)
    if not os.geteuid():
        os.chown(f"{folder}/f", 12, 34)
    numbers = os.stat(f"{folder}/f")
    return numbers.st_mode, numbers.st_uid, numbers.st_gid


def a_mapped_file_is_written(folder):
    with open(f"{folder}/f", "w+b") as file:
        file.write(bytes(20000))
        file.flush()
        with mmap.mmap(file.fileno(), 0) as mapped:
            mapped[5000:5005] = b"hello"
            mapped.flush()
    return rows(folder)


def many_names(folder):
    for number in range(300):
        put(f"{folder}/{'n' * 60}{number}", "")
    return sorted(os.listdir(folder)), sorted(it.name for it in os.scandir(folder))


def a_name_that_is_too_long(folder):
    put(f"{folder}/{'x' * 256}", "")


def a_repository_is_cloned(folder):
    done("git", "-c", "init.defaultBranch=m", "clone", "-q", "--no-hardlinks", TOP, f"{folder}/clone")
    return [done("git", *words, cwd=f"{folder}/clone") for words in (("status", "--short"), ("fsck", "--no-progress"), ("log", "-1", "--format=%H"))]


def an_archive_comes_out(folder):
    done("tar", "cf", f"{folder}/archive", "-C", TOP, "docs")
    done("tar", "xf", f"{folder}/archive", "-C", folder)
    done("diff", "-r", f"{TOP}/docs", f"{folder}/docs")
    os.remove(f"{folder}/archive")
    return rows(folder, lambda it: (it.st_mode, int(it.st_mtime)))


def a_lock_is_held(folder):
    put(f"{folder}/f", "")
    with open(f"{folder}/f", "rb") as one, open(f"{folder}/f", "rb") as other:
        fcntl.flock(one, fcntl.LOCK_EX)
        try:
            fcntl.flock(other, fcntl.LOCK_EX | fcntl.LOCK_NB)
        except BlockingIOError:
            return "held"
    return "not held"


def room_is_told(folder):
    return os.statvfs(folder).f_bavail > 0, os.statvfs(folder).f_namemax, run("df", folder)[0]


def all_is_removed(folder):
    done("cp", "-r", f"{TOP}/docs", f"{folder}/docs")
    done("rm", "-rf", f"{folder}/docs")
    return os.listdir(folder)


TRIES = [folders_are_copied, modes_and_times_are_copied, a_directory_moves, a_directory_above_an_open_file_moves, what_is_removed_while_open_works_on,
         no_name_is_left_of_it, a_rename_over_an_open_file, an_editor_saves, links_are_followed, a_hard_link, a_named_pipe, a_full_directory_stays,
         a_file_is_cut_and_grows, lines_are_appended, times_are_set, a_change_has_its_own_moment, modes_and_owners_are_set, a_mapped_file_is_written,
         many_names, a_name_that_is_too_long, a_repository_is_cloned, an_archive_comes_out, a_lock_is_held, room_is_told, all_is_removed]
REFUSED = {a_hard_link: "EPERM", a_named_pipe: "EPERM"}
