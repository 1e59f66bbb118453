"""What the kinds of kills stand on: random lines, the points that a session may leave, and a file system that is looked at."""
import signal

from runs import QUICK_KEY, Folders, Program

NAMES = ["a", "b", "c", "d"]
PATHS = [f"/{one}" for one in NAMES] + [f"/{one}/{other}" for one in NAMES for other in NAMES]
# Lines that together show the tree over these paths.
LOOK = ["ls /"] + [f"{line} {path}" for path in PATHS for line in ("stat", "ls", "readlink")] + [f"read {path} 0 1048576" for path in PATHS]
LINES_OF_ONE = 30


class Lost(Exception):
    """Something isn't as it has to be."""


def some_line(chance, block_size):
    """A line that changes the tree, where it fits; one in eight is a sync."""
    path, other = chance.choice(PATHS), chance.choice(PATHS)
    size = chance.choice([0, 1, block_size // 2, block_size, 3 * block_size])
    return chance.choice([
        "sync", f"mkdir {path}", f"mkdir {path}", f"mkfile {path}", f"mkfile {path}", f"mv {path} {other}", f"rm {path}",
        f"rmdir {path}", f"symlink to{size} {path}", f"chmod {path} {chance.randrange(512):o}", f"truncate {path} {size}",
        f"write {path} {chance.randrange(size + 1)} {chance.randbytes(size).hex() or '-'}",
        f"write {path} 0 {chance.randbytes(9).hex()}", f"read {path} 0 100", f"ls {path}", "sync"])


def without_times(answer):
    return " ".join(answer.split(" ")[:6]) if answer.startswith("stat ") else answer


def kept_points(lines, ended):
    """How many of the lines may be kept after a run: those up to the last sync that was answered ok, and those up to a sync,
    or to the end, where that is what the run was stopped in."""
    done = [at + 1 for at, answer in enumerate(ended.answers) if lines[at] == "sync" and answer == "ok"]
    points = [max(done, default=0)]
    at = len(ended.answers)
    if ended.status == 0:
        return [len(lines)]
    if at == len(lines) or lines[at] == "sync":
        points.append(min(at + 1, len(lines)))
    return points


class System:
    """One file system: its folders, the lines whose tree it held when it was last looked at, and the seconds of a whole session."""

    def __init__(self, program, folders, block_size):
        self.program, self.folders, self.history, self.usual = program, folders, [], None
        program.create(folders, "--blocksize", str(block_size), *QUICK_KEY)

    def stop_in(self, lines, chance):
        """A session that is killed at any time within what a whole one takes; the first one is left alone, to learn that."""
        after = None if self.usual is None else chance.uniform(0, 1.1 * self.usual)
        ended = self.program.session(self.folders, lines, stop_after=after)
        if ended.status == 0:
            self.usual = ended.seconds if self.usual is None else 0.5 * self.usual + 0.5 * ended.seconds
        elif ended.status != -signal.SIGKILL:
            raise Lost(f"a session ended with status {ended.status}: {ended.errors}{ended.answers[-1:]}")
        return ended

    def look(self, lines, answers, points):
        """Has an honest session look at the tree, which must be that after one of the numbers of lines, as the answers before must be
        the plain tree's. Takes those lines into the history, and returns how many they were."""
        found = self.program.session(self.folders, LOOK)
        if found.status or len(found.answers) != len(LOOK):
            raise Lost(f"an honest session ended with status {found.status}: {found.errors}{found.answers[-1:]}")
        script, looks = list(self.history), {}
        for at in range(len(lines) + 1):
            if at in points:
                looks[at] = len(script)
                script += LOOK
            script += lines[at : at + 1]
        plain = [without_times(answer) for answer in self.program.trial(script)]
        seen = [without_times(answer) for answer in found.answers]
        kept = [at for at in points if plain[looks[at] : looks[at] + len(LOOK)] == seen]
        for at in sorted(looks, reverse=True):
            del plain[looks[at] : looks[at] + len(LOOK)]
        self.compare(lines, answers, plain[len(self.history) :])
        if not kept:
            raise Lost(f"the tree isn't that after {points} of the lines {lines}, of which {len(answers)} were answered")
        self.history += lines[: max(kept)]
        return max(kept)

    def compare(self, lines, answers, plain):
        if len(answers) > len(lines):
            raise Lost(f"{len(answers)} answers to {len(lines)} lines")
        for line, answer, wanted in zip(lines, answers, plain):
            if without_times(answer) != wanted:
                raise Lost(f"{line[:100]} was answered {answer[:100]!r}, and the plain tree answers {wanted[:100]!r}")


def some_lines(chance, block_size):
    return [some_line(chance, block_size) for _ in range(chance.randrange(1, LINES_OF_ONE))]


class Kind:
    """One file system on which one kind of kills is tried, and what came of them, in numbers that all of its kind share. It lies in
    the folder `top`."""

    # How many kills it gets before another one is made.
    KILLS_OF_ONE = 50

    def __init__(self, given, chance, counts):
        self.chance, self.counts, self.block_size, self.top = chance, counts, given.block_size, None

    def count(self, what, number=1):
        self.counts[what] = self.counts.get(what, 0) + number

    def once(self):
        """Kills once or some times, and looks at what is there."""
        raise NotImplementedError


class Compared(Kind):
    """One whose tree is compared with the plain tree."""

    def __init__(self, given, chance, counts):
        super().__init__(given, chance, counts)
        self.program, self.folders = Program(given.program), Folders(given.folder)
        self.system, self.top = System(self.program, self.folders, given.block_size), self.folders.top

    def session(self, lines):
        """A whole session, after which the tree is that of its lines."""
        ended = self.program.session(self.folders, lines)
        if ended.status:
            raise Lost(f"a whole session ended with status {ended.status}: {ended.errors}")
        self.system.look(lines, ended.answers, [len(lines)])
