"""Counts, sizes and times in words, as a person reads them."""
import re
import time

# A line that counts directories, files, links, and of copies bytes: what was done, or would be.
COUNTED = re.compile(r"((?:would )?(?:import|export|update|remove)(?:e?d)?) (\d+) (\d+) (\d+)(?: (\d+))?")
KINDS = ("folder", "file", "link")
# Units of a thousand of those before.
UNITS = ("kB", "MB", "GB", "TB")


def number(count, what):
    """How many of something: `1 folder`, `2,995 files`."""
    return f"{count:,} {what}" if count == 1 else f"{count:,} {what}s"


def size(count):
    """A number of bytes with three digits: `105 MB`."""
    if count < 1000:
        return number(count, "byte")
    left, unit = count / 1000, 0
    while left >= 999.5 and unit < len(UNITS) - 1:
        left, unit = left / 1000, unit + 1
    return f"{left:.{2 if left < 9.995 else 1 if left < 99.95 else 0}f} {UNITS[unit]}"


def span(seconds):
    """How long it took: `0.4 s`, `12 s`, `3 min 20 s`, `1 h 5 min`."""
    if seconds < 9.95:
        return f"{seconds:.1f} s"
    whole = round(seconds)
    if whole < 60:
        return f"{whole} s"
    return f"{whole // 60} min {whole % 60} s" if whole < 3600 else f"{whole // 3600} h {whole % 3600 // 60} min"


def kinds(counts):
    """Directories, files and links, but for those of which there are none; `nothing` where there are none at all."""
    return ", ".join(number(count, what) for count, what in zip(counts, KINDS) if count) or "nothing"


def moment(seconds):
    """A time as the clocks here show it; one that these don't reach in seconds."""
    try:
        return time.strftime("%Y-%m-%d %H:%M", time.localtime(seconds))
    except (OverflowError, OSError, ValueError):
        return f"{seconds} s"


class Counts:
    """The counts of a run, which began when this was made."""

    def __init__(self):
        self.began, self.is_told = time.monotonic(), False

    def ended(self):
        """How long it took, behind the first count that is told."""
        told, self.is_told = "" if self.is_told else f" in {span(time.monotonic() - self.began)}", True
        return told

    def in_words(self, line):
        """A line of counts in words; any other line as it is."""
        counted, (word, *more) = COUNTED.fullmatch(line), line.split(" ")
        if counted:
            *found, length = (int(it or 0) for it in counted.groups()[1:])
            told = f"{counted[1]} {kinds(found)}" + (f", {size(length)}" if counted[5] and found[1] else "")
            return told if word == "would" else told + self.ended()
        if not more or not more[-1].isdigit() or " ".join([word, *more[:-1]]) not in ("check yes", "migrated", "refused", "failed"):
            return line
        count = int(more[-1])
        if word == "migrated":
            return f"migrated {number(count, 'block')}{self.ended()}" if count else "migrated nothing: format 1 wasn't taken any more"
        return f"check yes: all {number(count, 'block')}{self.ended()}" if word == "check" else f"{word} {number(count, 'block')}"
