#!/usr/bin/env python3
"""Runs the gate and prints what each crate cost, in seconds of processor, as a table.

    tools/costs.py rt ci

The log of `rt` has no times. So the provers that the command starts are looked at every half second, and each one's last
figures count: some tenths of a second are missing for each. Crates that are kept from an earlier run cost nothing. Where
it is interrupted or ended by SIGTERM, it ends the command and prints what was measured so far. The last line has the
minutes on the clock, and those of processor."""
import collections
import os
import signal
import subprocess
import sys
import time

from prove import read_lines

TICKS = os.sysconf("SC_CLK_TCK")
KINDS = ("Proof", "Tests", "Wrong bodies")
# Where `rt` tries a wrong body.
OF_EDITS = "/rt-edit-"


def look(process):
    """The parent of a process and its seconds of processor so far, or nothing where it has ended."""
    try:
        with open(f"/proc/{process}/stat", encoding="utf-8", errors="replace") as file:
            fields = file.read().rpartition(")")[2].split()
        return int(fields[1]), (int(fields[11]) + int(fields[12])) / TICKS
    except OSError:
        return None


def below(top, parents):
    """The processes that stand below one."""
    children = collections.defaultdict(list)
    for process, parent in parents.items():
        children[parent].append(process)
    found, left = [], [top]
    while left:
        found += children[left[-1]]
        left += children[left.pop()]
    return found


def subject(process):
    """Which crate a prover is at work on and what for, or nothing for another process."""
    try:
        with open(f"/proc/{process}/cmdline", encoding="utf-8", errors="replace") as file:
            words = file.read().split("\0")
        folder = os.readlink(f"/proc/{process}/cwd")
    except OSError:
        return None
    name = words[words.index("--crate-name") + 1] if "--crate-name" in words else None
    kind = "Wrong bodies" if OF_EDITS in folder else "Tests" if "--test" in words else "Proof"
    return (name, kind) if name else None


def note(top, seconds, subjects):
    """Notes the seconds by process, with what each is for, of all that the command started."""
    seen = {int(it): look(it) for it in os.listdir("/proc") if it.isdigit()}
    seen = {process: it for process, it in seen.items() if it}
    for process in below(top.pid, {process: it[0] for process, it in seen.items()}):
        subjects[process] = subject(process) or subjects.get(process)
        seconds[process] = seen[process][1]


def measure(top):
    """Seconds by process, with what each was for, until the command ends or this is told to end."""
    seconds, subjects = {}, {}
    try:
        while top.poll() is None:
            note(top, seconds, subjects)
            time.sleep(0.5)
    except KeyboardInterrupt:
        top.terminate()
    return [(subjects[it], seconds[it]) for it in seconds if subjects[it]]


def main(words):
    signal.signal(signal.SIGTERM, signal.default_int_handler)
    begun = time.monotonic()
    with subprocess.Popen(words) as top:
        found = measure(top)
    sums = collections.Counter()
    for (name, kind), seconds in found:
        sums[name, kind] += seconds
    print("\n| Crate | " + " | ".join(KINDS) + " |\n|---|" + "---|" * len(KINDS))
    for name in read_lines():
        row = [f"{sums[name, kind]:.0f}" if sums[name, kind] else "" for kind in KINDS]
        if any(row):
            print("| " + " | ".join([name, *row]) + " |")
    print("| all | " + " | ".join(f"{sum(it for (_, one), it in sums.items() if one == kind):.0f}" for kind in KINDS) + " |")
    print(f"\n{(time.monotonic() - begun) / 60:.1f} minutes, {sum(sums.values()) / 60:.0f} of processor")
    return top.returncode


if __name__ == "__main__":
    sys.exit(main(sys.argv[1:]) if sys.argv[1:] else __doc__)
