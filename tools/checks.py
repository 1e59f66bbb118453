#!/usr/bin/env python3
"""Runs the checks of this repository that need no prover, behind the gate's proofs.

    tools/checks.py        the checks alone
    tools/checks.py ci     passes on what `rt ci` and a last line `status N` give to the input, and then runs them

Of each check what it printed last is shown, or all where it failed, and that it passed, failed or was skipped: what it needs
isn't here, or its time was over. The last line is `N passed, M failed` with the checks as one each, behind `ci` with what `rt ci`
counted in its own last line. It ends with 1 where something failed. All checks together take some five minutes at most: one that
hasn't ended by then is interrupted, and skipped where nothing failed before."""
import os
import re
import signal
import subprocess
import sys
import time
from concurrent.futures import ThreadPoolExecutor

from prove import TOP

BUILT = f"{TOP}/crates/cryfs/out/cryfs"
LIMIT = 290
# Seconds that one has to end after it was interrupted.
GRACE = 10
# They run beside each other. The last two play the wrapper as a person meets it, and wait most of the time: so each runs two cases at once.
CHECKS = ("tools/crates.py cryfs", "tools/names.py", "tools/plants.py", "tools/pages.py", "tools/prose.py", "trials/hands.py unbuilt --beside 2",
          "trials/hands.py built --beside 2")


def pass_on(lines):
    """Prints what `rt ci` says, and tells how many passed and failed by its own last line, which its status has to fit."""
    passed, failed, status = 0, 0, None
    for line in lines:
        ended = re.fullmatch(r"status (\d+)\n", line)
        counts = re.fullmatch(r"(\d+) passed, (\d+) failed\n", line)
        if ended:
            status = int(ended[1])
        else:
            print(line, end="", flush=True)
        passed, failed = map(int, counts.groups()) if counts else (passed, failed)
    return passed, failed or int(status != 0)


def lacking(words, is_proved):
    """Why a check can't be run here, or nothing."""
    if "built" in words.split():
        return "" if is_proved and os.path.exists(BUILT) else "the program isn't built"
    return ""


def run(words, end):
    """The result of a check and what it printed. It is interrupted once the time is over."""
    how = {"cwd": TOP, "stdin": subprocess.DEVNULL, "stdout": subprocess.PIPE, "stderr": subprocess.STDOUT, "start_new_session": True}
    # A case that is slow on a busy machine is cut by the time of all, and not failed by its own.
    environment = {**os.environ, "PYTHONDONTWRITEBYTECODE": "1", "CASE_SECONDS": str(LIMIT)}
    started = subprocess.Popen([sys.executable, *words.split()], env=environment, **how)
    try:
        told = started.communicate(timeout=max(1, end - time.monotonic()))[0].decode(errors="replace")
        return "failed" if started.returncode else "passed", told
    except subprocess.TimeoutExpired:
        return stop(started)


def stop(started):
    """The same of a check whose time is over: it is skipped, unless something failed before."""
    for number in (signal.SIGINT, signal.SIGKILL):
        os.killpg(started.pid, number)
        try:
            told = started.communicate(timeout=GRACE)[0].decode(errors="replace")
            break
        except subprocess.TimeoutExpired:
            told = ""
    done = [line for line in told.splitlines(keepends=True) if line.startswith(("passed ", "FAILED ", "skipped"))]
    is_well = not any(line.startswith("FAILED ") for line in done)
    return "skipped" if is_well else "failed", "".join(done) + f"its time was over after {len(done)} cases\n"


def check_all(is_proved):
    """How many checks passed and failed."""
    counts, end = {"passed": 0, "failed": 0, "skipped": 0}, time.monotonic() + LIMIT
    with ThreadPoolExecutor(len(CHECKS)) as pool:
        why = {it: lacking(it, is_proved) for it in CHECKS}
        started = {it: pool.submit(run, it, end) for it in CHECKS if not why[it]}
        for it in CHECKS:
            result, told = started[it].result() if it in started else ("skipped", f"{why[it]}\n")
            counts[result] += 1
            lines = told.splitlines(keepends=True)
            shown = lines if result == "failed" else [line for line in lines[:-1] if line.startswith("skipped")] + lines[-1:]
            print(*shown, f"checks: {it}: {result}\n", sep="", end="", flush=True)
    return counts["passed"], counts["failed"]


def main(words):
    if words not in ([], ["ci"]):
        return __doc__
    passed, failed = pass_on(sys.stdin) if words else (0, 0)
    more, wrong = check_all(not failed)
    print(f"{passed + more} passed, {failed + wrong} failed")
    return 1 if failed + wrong else 0


if __name__ == "__main__":
    sys.exit(main(sys.argv[1:]))
