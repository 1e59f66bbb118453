"""Names of the tree in both forms: as lines and answers have them, with escapes, and as people read and type them."""
import os
import re
import sys

# An escape of a word, and a backslash that begins none.
ESCAPE = re.compile(rb"\\x([0-9a-fA-F]{2})")
LONE = re.compile(r"\\(?!x[0-9a-fA-F]{2})")
# What ends a line or its word, and what a terminal takes for a command.
CONTROLS, BLANKS = re.compile("[\0-\x1f\x7f]"), re.compile("[\0- \x7f]")
# A space that nobody would see, first or last in a name.
EDGES = re.compile("(?:^|(?<=/)) +| +(?=/|$)")
# How the tree's names are text, and how this machine's are.
TREE, HOST = ("utf-8", "surrogateescape"), (sys.getfilesystemencoding(), sys.getfilesystemencodeerrors())


def hidden(text, encoding=TREE):
    """Text as the escapes of its bytes."""
    return "".join(f"\\x{byte:02x}" for byte in text.encode(*encoding))


def escaped(name):
    """Bytes as a word of a line, and as answers print them."""
    return b"".join(bytes([it]) if 0x21 <= it <= 0x7E and it != 0x5C else b"\\x%02x" % it for it in name)


def unescaped(word):
    """The bytes that a word stands for."""
    return ESCAPE.sub(lambda it: bytes.fromhex(it[1].decode()), word)


def plain(text, encoding=TREE):
    """The text with `\\x` and two digits for each byte of what a terminal doesn't show as it stands, as a line's end or what sets a colour."""
    return "".join(it if it == " " or it.isprintable() else hidden(it, encoding) for it in text)


def readable(word):
    """A word of an answer as people read it: in its letters, but for what doesn't show, a backslash, and spaces at a name's ends."""
    text = plain(unescaped(word).decode(*TREE).replace("\\", "\\x5c"))
    return EDGES.sub(lambda it: hidden(it[0]), text).encode(*TREE)


def readable_line(line):
    """A line of an answer as people read it. Only names have escapes there, and none has a space."""
    return b" ".join(readable(it) if b"\\" in it or not it.isascii() else it for it in line.split(b" "))


def word_of(typed):
    """A path or a target as a person types it as a word of a line. An escape stands for its byte, all else for itself."""
    return BLANKS.sub(lambda it: hidden(it[0]), LONE.sub(r"\\x5c", typed))


def written(word):
    """A path as a word of a line: a newline in it would end the line, and others would be seen in an answer."""
    return os.fsencode(CONTROLS.sub(lambda it: hidden(it[0]), word))
