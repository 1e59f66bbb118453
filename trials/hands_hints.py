"""Cases of words that aren't known: what was likely meant is asked, and nothing else changes."""
import os

from hands_tree import has, same


def a_near_word_is_asked_for(tree):
    tree.built()
    for words, wanted in (("b s imprt f /", "import"), ("b s lss /", "ls"), ("b s cat /f", "get"), ("b s LS /", "ls"), ("b s remove /f", "rm"),
                          ("b s init", "create"), ("b s look sl /", "ls"), ("b s import f / --quite", "--quiet"), ("b s update f / --dryrun", "--dry-run"),
                          ("b s create --block-size 256", "--blocksize"), ("--pasword-file pw b s ls /", "--password-file"), ("b s help", "--help")):
        status, out, errors = tree.run(*words.split())
        same((status, out, errors.count("\n")), (1, "", 1), words)
        has(errors, f"(did you mean `{wanted}`?)")
    for words in ("b s xyzzy", "b s import f / --all", "--odd b s ls /", "b s look xyzzy /"):
        status, _, errors = tree.run(*words.split())
        same((status, "did you mean" in errors), (1, False), f"{words}: {errors}")


def folders_stand_before_the_command(tree):
    tree.built()
    for words, command in (("ls /", "ls"), ("create b s", "create"), ("import photos /", "import"), ("check b s", "check")):
        status, out, errors = tree.run(*words.split())
        same((status, out, errors.count("\n")), (1, "", 1), words)
        has(errors, f"BLOCKS and STATE stand before `{command}`", "CRYFS_BLOCKS, CRYFS_STATE")
    # A folder may have the name of a command.
    same(tree.run("check", "s", "ls", "/")[0], 5, "a folder called as a command")


def exchanged_folders_are_told(tree):
    tree.built().write("b/cryfs.config", "a configuration")
    for words in ("ls /", "look ls /", "import f /", "check"):
        status, out, errors = tree.run("s", "b", *words.split(), given=b"pw\n")
        same((status, out, errors.count("\n")), (125, "", 1), words)
        has(errors, "BLOCKS and STATE are exchanged")
    os.remove(f"{tree.top}/b/cryfs.config")
    status, _, errors = tree.run("s", "b", "ls", "/", given=b"pw\n")
    same((status, "exchanged" in errors), (125, False), errors)


CASES = [a_near_word_is_asked_for, folders_stand_before_the_command, exchanged_folders_are_told]
