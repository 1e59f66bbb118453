"""The forms of what is asked for: the words of each command, and why some are refused before anything is run."""
import os

import hints
from names import readable, word_of
from telling import USAGE, Refused, line_forms

# The words of each line, as help shows them.
LINES = line_forms()
COPIES = ("import", "export", "update")
PUT, GET = FILES = "put", "get"
MOUNT = "mount"
# What reads the files without the record, and the lines that it answers; beside these it gets a file.
LOOK, LOOKED = "look", ("ls", "stat", "readlink", "read")
# Words of the wrapper's own that list a tree, and the options of each, which stand before PATH.
LISTS = {"ls": "lR", "tree": "", "du": "s"}
COMMANDS = ("create", "info", "passwd", "migrate", "check", "shell", MOUNT, LOOK, *COPIES, *FILES, "generate", "trial", *LINES, "tree", "du")
# What may stand where a command does, or alone.
ASKABLE = (*COMMANDS, "--help", "--version")
CREATE_OPTIONS = ("--blocksize", "--scrypt-n", "--scrypt-r", "--scrypt-p")
# Has a copy keep modes and times. It stands behind the command or behind PATH.
TIMES, TIMED = "--times", ("import", "export")
# Words that may stand behind those of a command.
LATE_OPTIONS = {"import": ("--quiet", "--leave-out", TIMES), "export": ("--quiet", TIMES),
                "update": ("--quiet", "--leave-out", "--delete", "--delete-all", "--dry-run"), "check": ("--quiet",), MOUNT: ("--background",)}
# The word behind `rm` by which all below a path goes with it.
WHOLE = "-r"
# How names stand in words and answers: as people read and type them, or as lines have them.
NAMES, PLAIN, EXACT = "--names", "plain", "exact"
OR_PLAIN = f"; or give {NAMES}={PLAIN} before BLOCKS"


def is_list(words):
    """Whether they are words by which the wrapper lists a tree, and no line of the program's."""
    return words[0] in LISTS and (words[0] not in LINES or len(words) > 2 and words[1].startswith("-"))


def places(words, kinds):
    """Where words stand that are paths of the file system, or of other kinds of what a line's form names."""
    command = words[0]
    if command == LOOK:
        return [it + 1 for it in places(words[1:], kinds)] if words[1:] else []
    if command in COPIES or words[:2] == ["rm", WHOLE]:
        return [2]
    if command in FILES:
        return [1]
    if is_list(words):
        return [len(words) - 1] if len(words) > 1 else []
    return [at for at, it in enumerate(LINES.get(command, "").split()) if it in kinds]


def exact(words):
    """The same words with each path and target as lines have it."""
    at = places(words, ("PATH", "TARGET"))
    return [word_of(it) if number in at else it for number, it in enumerate(words)]


def split_times(words):
    """The words of a copy without the one that has it keep modes and times, and whether that stood there."""
    if words[0] not in TIMED:
        return words, False
    at = [number for number, it in enumerate(words) if it == TIMES and (number == 1 or number > 2)]
    if len(at) > 1:
        raise Refused(f"{TIMES} stands twice", USAGE)
    return [it for number, it in enumerate(words) if number not in at], bool(at)


def is_number(text, digits):
    return text.isascii() and text.isdigit() and len(text) <= digits


def check_command(words):
    """Refuses words that the program would call `usage`, but for numbers out of their range."""
    command, more = words[0], words[1:]
    if command not in COMMANDS:
        raise Refused(f"no command {command!r}{hints.meant(command, ASKABLE)}: see cryfs --help", USAGE)
    if command == "create":
        check_create(more)
    if command == LOOK:
        check_look(more)
    if command in ("info", "passwd", "migrate", "shell") and more:
        raise Refused(f"{command} takes no more words", USAGE)
    if command == "check":
        check_late(command, more[1:] if more[:1] == ["--all"] else more)
    if command == "rm" and more[:1] == [WHOLE]:
        check_whole(more[1:])
    elif is_list(words):
        check_list(command, more)
    elif command in LINES:
        check_line(LINES[command], more)
    if command in COPIES:
        check_copy(command, more)
    if command == MOUNT:
        check_mount(more)
    if command in FILES:
        check_file(command, more)
    if command == "generate":
        check_count(more, "generate N")
    if command == "trial" and more:
        check_count(more[1:] if more[0] == "generate" else [], "trial, or trial generate N")


def check_line(form, words):
    """Refuses words that the program would call a bad line by their number, an empty one, and a space in one."""
    if len(words) != len(form.split()) - 1 or not all(words) or " " in "".join(words):
        raise Refused(f"the words are {form}, none of them empty; a space in one is \\x20, quoted: '/my\\x20film'{OR_PLAIN}", USAGE)


def check_look(words):
    """Refuses what isn't a line that reads, and such a line's wrong words."""
    known = (*LOOKED, GET)
    if not words or words[0] not in known:
        told = ", ".join([*(LINES[it] for it in LOOKED), f"{GET} PATH"])
        raise Refused(f"{LOOK} answers one of these{hints.meant(words[0], known) if words else ''}: {told}", USAGE)
    if words[0] == GET:
        check_file(GET, words[1:])
    else:
        check_line(LINES[words[0]], words[1:])


def check_paths(words):
    """Refuses paths of a line that the program would call invalid."""
    for at in places(words, ("PATH",)):
        check_path(words[at])


def check_list(command, words):
    """Refuses what isn't options that the command has, and one path."""
    options, known = words[:-1], LISTS[command]
    if not words or any(it[:1] != "-" or not it[1:] or set(it[1:]) - set(known) for it in options):
        forms = " ".join(f"[-{it}]" for it in known)
        raise Refused(f"the words are {' '.join(filter(None, (command, forms, 'PATH')))}: a directory or file of the file system", USAGE)
    check_path(words[-1])


def check_count(words, form):
    """Refuses what isn't one number of so few digits."""
    if len(words) != 1 or not is_number(words[0], 7):
        raise Refused(f"the words are {form}, with an N of 1 to 7 digits", USAGE)


def check_copy(command, words):
    """Refuses what isn't a folder of this machine and a path of the file system."""
    if len(words) < 2 or not words[0]:
        raise Refused(f"the words are {command} FOLDER PATH: a folder of this machine, and a directory of the file system", USAGE)
    if words[0] in LATE_OPTIONS[command] and not words[1].startswith("/"):
        raise Refused(f"{words[0]} stands behind PATH: {command} FOLDER PATH {words[0]}", USAGE)
    check_path(words[1])
    check_late(command, words[2:])


def check_mount(words):
    """Refuses what isn't a folder of this machine."""
    if not words or not words[0]:
        raise Refused(f"the words are {MOUNT} FOLDER: an empty folder of this machine", USAGE)
    if words[0] in LATE_OPTIONS[MOUNT]:
        raise Refused(f"{words[0]} stands behind FOLDER: {MOUNT} FOLDER {words[0]}", USAGE)
    check_late(MOUNT, words[1:])


def check_late(command, words):
    """Refuses words behind those of the command that it doesn't have there, or not twice."""
    for number, word in enumerate(words):
        if word not in LATE_OPTIONS[command]:
            raise Refused(f"{command} takes no word {word!r} there{hints.meant(word, LATE_OPTIONS[command])}: see cryfs --help", USAGE)
        if word in words[:number]:
            raise Refused(f"{word} stands twice", USAGE)


def check_file(command, words):
    """Refuses what isn't one path of the file system."""
    if len(words) != 1:
        bytes_of = "its bytes are the input, as by < FILE" if command == "put" else "its bytes are the output, as by > FILE"
        raise Refused(f"the words are {command} PATH: a file of the file system; {bytes_of}", USAGE)
    check_path(words[0])


def check_whole(words):
    """Refuses what isn't one path below the root."""
    if len(words) != 1:
        raise Refused(f"the words are rm {WHOLE} PATH: it removes what is at PATH, and all below it", USAGE)
    check_path(words[0])
    if words[0] == "/":
        raise Refused(f"the root can't be removed: rm {WHOLE} each path that ls / lists", USAGE)


def check_path(word):
    """Refuses what isn't a path of the file system, but for its escapes, and a space in one."""
    shown = f"'{readable(os.fsencode(word)).decode()}'"
    if not word.startswith("/"):
        raise Refused(f"{shown} is no path of the file system: it begins with /, which alone is its root", USAGE)
    if " " in word:
        raise Refused(f"{shown} has a space, which a path of the file system has as \\x20, quoted: '/my\\x20film'{OR_PLAIN}", USAGE)
    if word != "/" and any(name in ("", ".", "..") for name in word.split("/")[1:]):
        raise Refused(f"{shown} is no path of the file system: names stand between single /, none of them . or .., and no / ends it", USAGE)


def check_create(words):
    """Refuses options of `create` that it doesn't have."""
    left = list(words)
    while left:
        name, mark, value = left.pop(0).partition("=")
        if name not in CREATE_OPTIONS:
            raise Refused(f"create has no option {name!r}{hints.meant(name, CREATE_OPTIONS)}: see cryfs --help", USAGE)
        if not mark and left:
            value = left.pop(0)
        if not is_number(value, 20):
            raise Refused(f"{name} needs a number after it", USAGE)
