"""Gets a file's bytes without the record, by one look after the other: each reads a mebibyte of it."""
import running
from forms import LOOK
from showing import OUTPUT_FAULT
from telling import write_whole

# The most bytes that a line reads.
PIECE = 1048576
REFUSED, TEXT = 13, b"cryfs: copy refused\n"


def looked(program, call, first, words):
    """How a look of these words ended: its status, what it said, and what it answered."""
    call.rest = [LOOK, *words]
    answers, errors = running.in_memory(), running.in_memory()
    process = running.start(program, call, {0: running.in_memory(first), 1: answers, 2: errors}, ends_with_this=True)
    status = running.wait(process)
    return status, running.read_whole(errors), running.read_whole(answers)


def run(program, call, first):
    """Writes the bytes of a file, and ends as the first look that didn't give its piece."""
    path, place = call.rest[2], 0
    while True:
        status, said, answer = looked(program, call, first, ["read", path, str(place), str(PIECE)])
        if status or not answer.startswith(b"data "):
            call.said = answer.decode(errors="replace").strip()
            write_whole(2, answer)
            running.end(status or REFUSED, said or TEXT, call)
        digits = answer[5:].strip()
        piece = b"" if digits == b"-" else bytes.fromhex(digits.decode())
        try:
            write_whole(1, piece)
        except OSError:
            running.end(OUTPUT_FAULT, b"cryfs: output fault\n", call)
        place += len(piece)
        if len(piece) < PIECE:
            running.end(status, said, call)
