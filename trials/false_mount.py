#!/usr/bin/env python3
"""Stands for `cryfs_mount` in the cases of `hands_mount.py`: BLOCKS STATE, the kernel's descriptor as 0 and 1, the password's line in 3.

It serves a folder of four files that nobody can change. Reading `alarm` is a violation, reading `end` kills it. What it was run with
and what it was asked for stands in a file `got` beside it. The password decides too: `wrong` doesn't open, `slow` takes a second."""
import errno
import os
import signal
import stat
import struct
import sys
import time

HEADER = struct.Struct("<IIQQIIIHH")
REPLY = struct.Struct("<IiQ")
ATTRIBUTES = struct.Struct("<QQQQQQIIIIIIIIII")
# The numbers of requests, as <linux/fuse.h> has them.
LOOKUP, FORGET, GETATTR, OPEN, READ, STATFS, RELEASE, FLUSH = 1, 2, 3, 14, 15, 17, 18, 25
INIT, OPENDIR, READDIR, RELEASEDIR, INTERRUPT, DESTROY, FORGETS = 26, 27, 28, 29, 36, 38, 42
ROOT, FILES = 1, {2: b"f", 3: b"alarm", 4: b"end", 5: b"open"}
CONTENTS = b"one\n"
VIOLATION = 5


def note(text):
    with open(os.path.join(os.path.dirname(os.path.abspath(sys.argv[0])), "got"), "a", encoding="utf-8") as file:
        file.write(text + "\n")


def attributes(node):
    is_root = node == ROOT
    size = 0 if is_root else len(CONTENTS)
    mode = stat.S_IFDIR | 0o755 if is_root else stat.S_IFREG | 0o644
    return ATTRIBUTES.pack(node, size, 1, 0, 0, 0, 0, 0, 0, mode, 1, os.getuid(), os.getgid(), 0, 4096, 0)


def rows(place):
    """The rows behind a place, each with the place behind it."""
    out = b""
    for at, (node, name) in list(enumerate(FILES.items()))[place:]:
        out += struct.pack("<QQII", node, at + 1, len(name), stat.S_IFREG >> 12) + name + bytes(-len(name) % 8)
    return out


class Server:
    status = 0

    def answer(self, code, node, body):
        """The body of a reply, or a number of errno."""
        if self.status:
            return errno.EBADMSG
        if code == INIT:
            ahead = struct.unpack_from("<I", body, 8)[0]
            return struct.pack("<IIIIHHIIHHI28x", 7, 31, ahead, 0, 12, 9, 1 << 17, 1, 0, 0, 0)
        if code == LOOKUP:
            found = [number for number, name in FILES.items() if name == bytes(body).split(b"\0")[0]]
            return struct.pack("<QQQQII", found[0], 0, 0, 0, 0, 0) + attributes(found[0]) if found else errno.ENOENT
        if code == GETATTR:
            return struct.pack("<QII", 0, 0, 0) + attributes(node)
        if code in (OPEN, OPENDIR):
            return struct.pack("<QII", 0, 0, 0)
        if code == READ:
            return self.read(node, *struct.unpack_from("<QI", body, 8))
        if code == READDIR:
            return rows(struct.unpack_from("<Q", body, 8)[0])
        if code == STATFS:
            note("tick")
            return struct.pack("<QQQQQIIII24x", 1 << 20, 1 << 19, 1 << 19, 1 << 20, 1 << 19, 4096, 255, 4096, 0)
        return b"" if code in (RELEASE, RELEASEDIR, FLUSH, DESTROY) else errno.ENOSYS

    def read(self, node, place, count):
        if FILES[node] == b"end":
            os.kill(os.getpid(), signal.SIGKILL)
        if FILES[node] == b"alarm":
            print("cryfs: violation old-version 3 2", file=sys.stderr, flush=True)
            self.status = VIOLATION
            return errno.EBADMSG
        return CONTENTS[place:place + count]

    def serve(self):
        while True:
            try:
                request = os.read(0, 1 << 18)
            except OSError as why:
                if why.errno == errno.ENODEV:
                    return
                if why.errno == errno.ENOENT:
                    continue
                raise
            _, code, unique, node, *_ = HEADER.unpack_from(request)
            if code in (FORGET, FORGETS, INTERRUPT):
                continue
            answer = self.answer(code, node, request[HEADER.size:])
            error, body = (-answer, b"") if isinstance(answer, int) else (0, answer)
            os.write(1, REPLY.pack(REPLY.size + len(body), error, unique) + body)


def main():
    with open("/dev/fd/3", "rb") as file:
        password = file.read()
    note(f"words {' '.join(sys.argv[1:])}\nin {os.getcwd()}\npassword {password.decode()!r}")
    if password == b"wrong\n":
        print("cryfs: configuration does not open", file=sys.stderr)
        return 3
    if password == b"slow\n":
        time.sleep(1)
    server = Server()
    server.serve()
    note("closed")
    if server.status:
        print("cryfs: integrity violation", file=sys.stderr)
    return server.status


if __name__ == "__main__":
    sys.exit(main())
