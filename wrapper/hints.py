"""What was likely meant where a word isn't known, where words stand in another order, and where two folders are exchanged."""
import os

from looking import RECORD

CONFIG = "cryfs.config"
# Words that other programs have for what a command does here.
ELSEWHERE = {"init": "create", "mkfs": "create", "new": "create", "cat": "get", "cp": "import", "copy": "import", "add": "import", "backup": "import",
             "extract": "export", "restore": "export", "rsync": "update", "dir": "ls", "list": "ls", "find": "tree", "del": "rm", "delete": "rm",
             "remove": "rm", "rename": "mv", "move": "mv", "touch": "mkfile", "ln": "symlink", "fsck": "check", "verify": "check", "password": "passwd",
             "recover": "look", "umount": "mount", "unmount": "mount", "help": "--help", "version": "--version"}
# How like a known word another one is at least.
NEAR = 0.6


def nearest(word, known):
    """The known word that another one is likely meant to be; nothing where none is near."""
    if ELSEWHERE.get(word.lower()) in known:
        return ELSEWHERE[word.lower()]
    # (no other run needs it)
    import difflib
    found = difflib.get_close_matches(word.lower(), known, 1, NEAR) or [it for it in known if sorted(it) == sorted(word.lower())]
    return found[0] if found else ""


def meant(word, known):
    """A question for the known word that is near, to stand behind what refuses another one."""
    near = nearest(word, known)
    return f" (did you mean `{near}`?)" if near else ""


def order(words, commands):
    """That the folders stand in front, where a command was given before them and none at its place."""
    if words and words[0] in commands and not (len(words) > 2 and words[2] in commands):
        return f" (BLOCKS and STATE stand before `{words[0]}`, or both are in the environment: CRYFS_BLOCKS, CRYFS_STATE)"
    return ""


def is_exchanged(blocks, state):
    """Whether the record is where blocks were named, and the configuration where the record was."""
    return os.path.lexists(os.path.join(blocks, RECORD)) and os.path.lexists(os.path.join(state, CONFIG))


def exchanged(blocks, state):
    """That the two folders are exchanged, where they are."""
    return " (BLOCKS and STATE are exchanged: BLOCKS stands first)" if is_exchanged(blocks, state) else ""
