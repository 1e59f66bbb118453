"""The two folders of a call: where they stand, and why some are refused before anything is run."""
import os

import hints
from looking import RECORD
from telling import USAGE, Refused, named


def split_folders(words, environment, commands):
    """The folders and what follows them. Both stand in the environment where the first word is a command."""
    blocks, state = environment.get("CRYFS_BLOCKS"), environment.get("CRYFS_STATE")
    if words and words[0] in commands and (blocks or state):
        if not (blocks and state):
            raise Refused("CRYFS_BLOCKS and CRYFS_STATE are set both or none", USAGE)
        return blocks, state, words
    if len(words) < 3:
        raise Refused(f"the words are BLOCKS STATE COMMAND{hints.order(words, commands)}: see cryfs --help", USAGE)
    if not words[0] or not words[1]:
        raise Refused("a folder's name is empty: the words are BLOCKS STATE COMMAND", USAGE)
    if words[2] not in commands and hints.order(words, commands):
        raise Refused(f"no command {words[2]!r}{hints.order(words, commands)}: see cryfs --help", USAGE)
    return words[0], words[1], words[2:]


def check_apart(blocks, state):
    """Refuses folders that would give the record to whoever holds the blocks."""
    for inner, outer, what in ((state, blocks, "STATE lies in BLOCKS"), (blocks, state, "BLOCKS lies in STATE")):
        if same_folder(inner, outer):
            raise Refused(f"STATE and BLOCKS are one folder, {named(real(outer))}: who holds the blocks could change the record. "
                          "Name another STATE, which stays on this machine")
        if lies_within(inner, outer):
            raise Refused(f"{what}: {named(real(inner))} is below {named(real(outer))}. Name two folders of which none holds the other; "
                          "STATE stays on this machine")


def check_exchanged(blocks, state):
    """Refuses folders that are exchanged."""
    if hints.is_exchanged(blocks, state):
        raise Refused(f"BLOCKS, {named(real(blocks))}, has the record, and STATE the files{hints.exchanged(blocks, state)}")


def check_record(blocks, state):
    """Refuses a STATE whose record isn't there, and one that can't be read."""
    try:
        os.lstat(os.path.join(state, RECORD))
    except (FileNotFoundError, NotADirectoryError):
        raise Refused(f"no record of a file system in STATE, {named(real(state))}{hints.exchanged(blocks, state)}: name the right folder, or bring "
                      "back its last copy; only create makes one, and `look ls /` shows files without it")
    except OSError as problem:
        raise Refused(f"STATE, {named(real(state))}, can't be read: {problem.strerror}")


def real(path):
    return os.path.realpath(path)


def same_folder(one, other):
    try:
        return os.path.samefile(one, other)
    except OSError:
        return real(one) == real(other)


def lies_within(inner, outer):
    """Whether a folder is below another, by real paths and by what the system takes for one folder."""
    above = os.path.dirname(real(inner))
    while not same_folder(above, outer):
        if above == os.path.dirname(above):
            return False
        above = os.path.dirname(above)
    return True
