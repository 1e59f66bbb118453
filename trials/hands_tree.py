"""What the cases of `hands.py` stand on: a folder with the wrapper in it, a terminal, and what is asserted."""
import contextlib
import importlib.util
import os
import pty
import select
import shutil
import signal
import subprocess
import sys
import termios
import time

TOP = os.path.dirname(os.path.dirname(os.path.abspath(__file__)))
BUILT = f"{TOP}/crates/cryfs/out/cryfs"
CRATES = """block_id:
outside: block_id
path_tests: block_id outside
cryfs: block_id outside
"""
RT = r"""#!/bin/sh
top=$(dirname "$(dirname "$0")")
[ "$1" = doc ] && { echo "$top/START-HERE.md"; exit; }
echo "$*" >>"$top/calls"
for crate in crates/*; do
    [ -e "$top/slow" ] && sleep 0.5
    [ -e "$top/refused" ] && { echo 'a goal is open'; echo "rt: ${crate#crates/} NOT PROVED"; exit 1; }
    echo "logic=proved"; echo "rt: ${crate#crates/} proved"
done
for name in cryfs cryfs_mount; do
    [ -e crates/$name ] && mkdir -p crates/$name/out && cp "$top/stub" crates/$name/out/$name
done
[ -e "$top/half" ] && exit 1; exit 0
"""
# What builds for processors with AVX2: nothing, where the tree has no program `wide`.
RATTLE = r"""#!/bin/sh
top=$(dirname "$(dirname "$0")")
echo "$*" >>"$top/rattled"
for last; do :; done
cp "$top/wide" "$last"
"""
LINK = r"""#!/bin/sh
cp "$7" "$6"
"""
PROGRAM = r"""#!/bin/sh
echo "process $$ in $PWD"
echo "words $*"
case $4 in early) exit 3 ;; esac
while IFS= read -r line; do echo "line $line"; done
[ -n "$line" ] && echo "piece $line"
exit 5
"""
# The same for processors with AVX2, which says so. Without words it ends well: so the build tries it.
WIDE = PROGRAM.replace("#!/bin/sh\n", '#!/bin/sh\n[ $# = 0 ] && exit 0\necho "wide"\n')
# A program for terminals: a line for each line, of `ls` more; `die` ends it, and `slow` takes its time. What it was run
# with and what it got are in a file.
ANSWERS = r"""#!/bin/sh
got=$(dirname "$0")/got
echo "words $*" >"$got"
[ "$3" = shell ] && { IFS= read -r line; echo "password $line" >>"$got"; }
case $4 in early) echo 'cryfs: configuration does not open' >&2; exit 3 ;; esac
while IFS= read -r line; do
    echo "line $line" >>"$got"
    case $line in
    ls*) printf 'list 2\n'; sleep 0.1; printf 'f a\nf b\n' ;;
    die) exit 7 ;;
    slow) sleep 2; echo ok ;;
    *) echo "answer ${#line}" ;;
    esac
done
sleep 0.2
echo closed >>"$got"
"""
# The wrapper's modules, by which a case asks what they know.
sys.path[:0] = [f"{TOP}/wrapper"]
# The most seconds that a run may take, so that a busy machine fails nothing.
LIMIT = int(os.environ.get("CASE_SECONDS", "60"))
# What an installation takes of the documents, README.md aside.
INSTALLED_PAGES = ("docs/USING.md", "docs/FORMATS.md", "docs/PERFORMANCE.md")


def programs_here():
    """The programs that were built in this checkout and that this processor runs."""
    import built
    import processor

    found = [BUILT, built.wide_of(BUILT)] if processor.is_wide() else [BUILT]
    return [it for it in found if os.path.exists(it)]


class Tree:
    """A folder with the script, a line of source for each crate, and an `rt` of its own."""

    def __init__(self, folder, program=None):
        self.top, self.program, self.started, self.exported = folder, program or BUILT, [], {}
        os.makedirs(f"{folder}/bin")
        for name in ("cryfs", "build", "HANDLES", "README.md", "tools/prove.py", "tools/wide.py", *INSTALLED_PAGES):
            os.makedirs(os.path.dirname(f"{folder}/{name}"), exist_ok=True)
            shutil.copy2(f"{TOP}/{name}", f"{folder}/{name}")
        shutil.copytree(f"{TOP}/wrapper", f"{folder}/wrapper", ignore=shutil.ignore_patterns("__pycache__"))
        self.write("crates.txt", CRATES)
        for line in CRATES.splitlines():
            name, _, libraries = line.partition(":")
            uses = "".join(f"use {it};\n" for it in libraries.split())
            self.write(f"crates/{name}/src/lib.rt", f"{uses}pub fn one() {{}}\n")
        for name, text in {"rt": RT, "rattle": RATTLE, "rattle-link": LINK}.items():
            self.write(f"bin/{name}", text, 0o755)
        self.write("stub", PROGRAM, 0o755)

    def write(self, path, text, mode=0o644):
        os.makedirs(os.path.dirname(f"{self.top}/{path}"), exist_ok=True)
        with open(f"{self.top}/{path}", "w") as file:
            file.write(text)
        os.chmod(f"{self.top}/{path}", mode)

    def calls(self):
        with contextlib.suppress(FileNotFoundError):
            return open(f"{self.top}/calls").read().splitlines()
        return []

    def environment(self, with_rt=True):
        return {**os.environ, **self.exported, "PATH": (f"{self.top}/bin:" if with_rt else "") + "/usr/bin:/bin"}

    def start(self, *words, script=None, with_rt=True, cwd=None):
        words, streams = [script or f"{self.top}/cryfs", *words], dict.fromkeys(("stdin", "stdout", "stderr"), subprocess.PIPE)
        self.started.append(subprocess.Popen(words, env=self.environment(with_rt), cwd=cwd or self.top, start_new_session=True, **streams))
        return self.started[-1]

    def end(self):
        """Ends what a failed case left running."""
        for it in self.started:
            if it.poll() is None:
                os.killpg(it.pid, signal.SIGKILL)
                it.wait()

    def run_whole(self, *words, given=b"", **how):
        """The status, the output and the errors of a run whose input is a pipe."""
        started = self.start(*words, **how)
        out, errors = started.communicate(given, timeout=LIMIT)
        return started.returncode, out.decode(errors="replace"), errors.decode(errors="replace")

    def run(self, *words, **how):
        """The same without the cause that stands before the last line, where there is one."""
        status, out, errors = self.run_whole(*words, **how)
        return status, out, "".join(it for it in errors.splitlines(keepends=True) if not self.is_cause(status, it))

    def is_cause(self, status, line):
        """Whether a line of errors tells a cause of this status."""
        return any(row[0] == str(status) and row[1] and line.startswith(f"cryfs: {row[2]}: ") for row in self.status_rows())

    def build(self, *words, **how):
        return self.run(*words, script=f"{self.top}/build", **how)

    def built(self, program=None):
        """The tree with its program built, and with a record in its folder `s`."""
        same(self.build()[0], 0, "the build")
        os.remove(f"{self.top}/calls")
        self.write("s/cryfs.localstate", "a record")
        if program:
            self.write("crates/cryfs/out/cryfs", program, 0o755)
        return self

    def real(self):
        """The tree with a program that was built in this checkout."""
        self.built()
        shutil.copy2(self.program, f"{self.top}/crates/cryfs/out/cryfs")
        shutil.rmtree(f"{self.top}/s")
        return self

    def status_rows(self):
        """The table of statuses: the number, the text, the cause, what to do."""
        lines = [line for line in self.read("wrapper/statuses.txt").splitlines() if not line.startswith("#")]
        require(len(lines) > 15, "the table is short")
        return [tuple(cell.strip() for cell in line.split("|")) for line in lines]

    def got(self):
        """What the program for terminals was run with, and what it got."""
        return self.read("crates/cryfs/out/got")

    def read(self, path):
        with contextlib.suppress(FileNotFoundError):
            with open(f"{self.top}/{path}", errors="replace") as file:
                return file.read()
        return ""


class Terminal:
    """A run of the script whose standard streams are a terminal of its own."""

    def __init__(self, tree, *words, kind="dumb", into=None, script=None):
        try:
            self.pid, self.side = pty.fork()
        except OSError as why:
            raise Skipped(f"no terminal: {why}") from why
        if not self.pid:
            os.chdir(tree.top)
            signal.signal(signal.SIGPIPE, signal.SIG_DFL)
            if into is not None:
                os.dup2(into, 1)
            script = script or f"{tree.top}/cryfs"
            os.execve(script, [script, *words], {**tree.environment(), "TERM": kind})
        self.seen = ""

    def expect(self, text):
        """Reads until the text came, and takes what came up to its end from `seen`."""
        end = time.monotonic() + LIMIT
        while text not in self.seen:
            ready = select.select([self.side], [], [], max(0, end - time.monotonic()))[0]
            piece = self.read() if ready else b""
            require(piece, f"{text!r} never came, but {self.seen!r}")
            self.seen += piece.decode(errors="replace")
        before, _, self.seen = self.seen.partition(text)
        return before

    def read(self):
        with contextlib.suppress(OSError):
            return os.read(self.side, 4096)
        return b""

    def send(self, text):
        os.write(self.side, text.encode())

    def shows(self):
        return bool(termios.tcgetattr(self.side)[3] & termios.ECHO)

    def answer(self, prompt, text):
        """Types a line at a prompt that must not show it."""
        self.expect(prompt)
        wait_until(lambda: not self.shows(), "echo stays on at the prompt")
        self.send(text + "\n")

    def end(self):
        """The status, negative for a signal, and all that was seen since; the terminal shows what is typed again."""
        end, status = time.monotonic() + LIMIT, None
        while status is None and time.monotonic() < end:
            if select.select([self.side], [], [], 0.05)[0]:
                self.seen += self.read().decode(errors="replace")
            pid, ended = os.waitpid(self.pid, os.WNOHANG)
            status = os.waitstatus_to_exitcode(ended) if pid else None
        if status is None:
            os.kill(self.pid, signal.SIGKILL)
            raise AssertionError(f"it hadn't ended after {LIMIT} s; seen: {self.seen!r}")
        require(self.shows(), "the terminal is left without echo")
        os.close(self.side)
        return status, self.seen


class Skipped(Exception):
    """What a case needs isn't here."""


def needs(*things):
    """Skips a case where a file or a module of python isn't here."""
    for it in things:
        if not (os.path.exists(it) if it.startswith("/") else importlib.util.find_spec(it)):
            raise Skipped(f"there is no {it}")


def require(holds, why):
    if not holds:
        raise AssertionError(why)


def same(found, wanted, what):
    require(found == wanted, f"{what}: {found!r} instead of {wanted!r}")


def has(text, *parts):
    for part in parts:
        require(part in text, f"{part!r} isn't in {text!r}")


def wait_until(holds, why):
    end = time.monotonic() + LIMIT
    while not holds():
        require(time.monotonic() < end, why)
        time.sleep(0.02)
