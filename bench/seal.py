#!/usr/bin/env python3
"""Sealing and opening of blocks in memory: bench_memory beside python3's cryptography (OpenSSL), in one run.

Build the program first: (cd crates/bench_memory && rt run). The words are sizes of blocks; without any, 16384 and 128.
For each size five rounds are run, in each of them bench_memory with the key made ready in each call, bench_memory with
the key made ready once, and OpenSSL with a key that is kept. Times are of the processor in user mode, so that other
programs on the machine matter little. Printed are the medians, the median of the rounds' ratios, and what making the
key ready costs a call.
"""
import os
import resource
import subprocess
import sys
from statistics import median

from cryptography.hazmat.primitives.ciphers.aead import AESGCM

TOP = os.path.dirname(os.path.dirname(os.path.abspath(__file__)))
PROGRAM = os.path.join(TOP, "crates", "bench_memory", "out", "bench_memory")
ROUNDS = 5
# OpenSSL is so much faster that it is given this many times the blocks.
MORE = 8


def seconds(run):
    """Processor time of a call in user mode, with its child processes."""
    def used():
        return sum(resource.getrusage(who).ru_utime for who in (resource.RUSAGE_SELF, resource.RUSAGE_CHILDREN))
    start = used()
    run()
    return used() - start


def ours(measure, count, size):
    subprocess.run([PROGRAM, measure, str(count), str(size)], check=True, stdout=subprocess.DEVNULL)


def theirs(count, size):
    cipher, plain = AESGCM(b"\7" * 32), bytes(size)
    for number in range(count):
        iv = number.to_bytes(16, "big")
        plain = cipher.decrypt(iv, cipher.encrypt(iv, plain, None), None)


def measure(size):
    count = max(1, 40_000_000 // size)
    rounds = [(seconds(lambda: ours("seal", count, size)),
               seconds(lambda: ours("seal-kept", count, size)),
               seconds(lambda: theirs(count * MORE, size)) / MORE) for _ in range(ROUNDS)]
    each, kept, other = (median(r[i] for r in rounds) for i in range(3))
    ratio = median(r[2] / r[0] for r in rounds)
    calls, megabytes = 2 * count, 2 * count * size / 1e6
    print(f"{size} bytes: ours {megabytes / each:.1f} MB/s, cryptography {megabytes / other:.1f} MB/s, ratio {ratio:.3f};"
          f" with the key kept {megabytes / kept:.1f} MB/s, so making it ready costs {(each - kept) / calls * 1e6:.2f} us a call"
          f" of {each / calls * 1e6:.2f}")


for word in sys.argv[1:] or ["16384", "128"]:
    measure(int(word))
