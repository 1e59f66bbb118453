"""Which programs this processor runs: each is made for all x86-64 ones of the last fifteen years, and for those with AVX2."""
import os

from telling import Refused

# What a program for x86-64-v3 needs beside the other one, by the system's names.
NEEDED = {"avx", "avx2", "bmi1", "bmi2", "f16c", "fma", "abm", "movbe"}
FLAGS = "/proc/cpuinfo"
# The environment's word that has one of the two run, for tests, and what it may say.
ASKED = "CRYFS_CPU"
PLAIN, WIDE = "x86-64-v2", "x86-64-v3"


def flags():
    """Those of the first processor, or none where the system doesn't tell them."""
    try:
        with open(FLAGS, encoding="ascii", errors="replace") as file:
            return next((set(rest.split()) for name, _, rest in (line.partition(":") for line in file) if name.strip() == "flags"), set())
    except OSError:
        return set()


def asked():
    """What the environment asks for, or nothing."""
    word = os.environ.get(ASKED, "")
    if word not in ("", PLAIN, WIDE):
        raise Refused(f"{ASKED} is {PLAIN} or {WIDE}, and not {word}")
    return word


def is_wide():
    return NEEDED <= flags()
