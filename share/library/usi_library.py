#!/usr/bin/env python3
"""USI sessions in this process, by the shared library that `make library` makes. As a script it answers
what is written to it:

    echo 'go depth 3' | share/library/usi_library.py crates/usi_library/out/libusi.so
"""

import ctypes
import sys
from typing import NamedTuple

OK, CLOSED, IS_OPEN, OUT_OF_RANGE, OUT_OF_MEMORY, TOO_LONG, NOT_WANTED = range(7)
UNKNOWN_EVAL, DEPTH_OUT_OF_RANGE, MAX_DEPTH_OUT_OF_RANGE, LINES_OUT_OF_RANGE, DEPTH_ABOVE_MAX = range(7, 12)
PLAIN, HAND, EXCHANGE = range(3)
CHUNK_MAX = 4096
WHY = {
    CLOSED: "the session is closed",
    IS_OPEN: "the session is open already",
    OUT_OF_RANGE: "a table has 1 to 1,000,000 entries",
    OUT_OF_MEMORY: "memory was refused",
    TOO_LONG: f"more than {CHUNK_MAX} bytes at once",
    NOT_WANTED: "no input is wanted now",
    UNKNOWN_EVAL: "an evaluation is PLAIN, HAND or EXCHANGE",
    DEPTH_OUT_OF_RANGE: "a depth is from 1 to 16",
    MAX_DEPTH_OUT_OF_RANGE: "a greatest depth is from 1 to 16",
    LINES_OUT_OF_RANGE: "best lines are from 1 to 8",
    DEPTH_ABOVE_MAX: "the depth is above the greatest depth",
}


class Setup(NamedTuple):
    """Where the options of a session begin, and the greatest depth of its searches."""

    depth: int = 3
    max_depth: int = 16
    lines: int = 1
    eval: int = PLAIN


class _Session(ctypes.Structure):
    _fields_ = [("held", ctypes.c_void_p), ("is_open", ctypes.c_bool)]


class _Answer(ctypes.Structure):
    _fields_ = [("status", ctypes.c_uint32), ("count", ctypes.c_uint64)]


class Look(ctypes.Structure):
    """What there is of a session."""

    _fields_ = [
        ("queued", ctypes.c_uint64),
        ("is_open", ctypes.c_bool),
        ("wants_input", ctypes.c_bool),
        ("is_pending", ctypes.c_bool),
        ("is_over", ctypes.c_bool),
    ]


class Refused(Exception):
    """A call was not done; `status` says why."""

    def __init__(self, status):
        super().__init__(WHY[status])
        self.status = status


def load(path):
    """The library at the path, with its calls declared."""
    library = ctypes.CDLL(path)
    at, text, size = ctypes.POINTER(_Session), ctypes.c_char_p, ctypes.c_size_t
    number = ctypes.c_uint32
    for name, takes, gives in [
        ("usi_open", [at, size], ctypes.c_uint32),
        ("usi_open_with_setup", [at, size, number, number, number, number], ctypes.c_uint32),
        ("usi_close", [at], ctypes.c_uint32),
        ("usi_feed", [at, text, size], ctypes.c_uint32),
        ("usi_work", [at, ctypes.c_uint64], _Answer),
        ("usi_take", [at, text, size], _Answer),
        ("usi_look", [at], Look),
    ]:
        call = getattr(library, name)
        call.argtypes, call.restype = takes, gives
    return library


class Session:
    """A session, used on the thread that made it. `with` closes it."""

    def __init__(self, library, entries=4096, setup=Setup()):
        self._library = library
        self._session = _Session()
        self._buffer = ctypes.create_string_buffer(CHUNK_MAX)
        if not 1 <= entries <= 1_000_000:
            raise Refused(OUT_OF_RANGE)
        # ctypes would cut a number that is too large
        numbers = [number if 0 <= number < 1 << 32 else (1 << 32) - 1 for number in setup]
        self._done(library.usi_open_with_setup(self._session, entries, *numbers))

    def __enter__(self):
        return self

    def __exit__(self, *_):
        self.close()

    def __del__(self):
        self.close()

    def close(self):
        """Gives its memory back. A closed one stays closed."""
        self._library.usi_close(self._session)

    def _done(self, status):
        if status != OK:
            raise Refused(status)

    def feed(self, data):
        """Stores the bytes, at most CHUNK_MAX."""
        self._done(self._library.usi_feed(self._session, data, len(data)))

    def work(self, steps):
        """Makes at most so many steps, from 0 to 2^64 - 1, and gives how many were made."""
        # ctypes would take -1 as the greatest number
        if not 0 <= steps < 1 << 64:
            raise ValueError(f"steps are from 0 to 2^64 - 1, and not {steps}")
        answer = self._library.usi_work(self._session, steps)
        self._done(answer.status)
        return answer.count

    def take(self):
        """All queued bytes, which are gone from the session."""
        taken = b""
        while True:
            answer = self._library.usi_take(self._session, self._buffer, CHUNK_MAX)
            self._done(answer.status)
            taken += self._buffer.raw[: answer.count]
            if answer.count < CHUNK_MAX:
                return taken

    def look(self):
        """What there is of it."""
        return self._library.usi_look(self._session)

    def answers(self, data, steps=10_000):
        """Feeds the bytes in pieces, and gives what is answered as it comes."""
        for start in range(0, len(data), CHUNK_MAX):
            if self.look().is_over:
                return
            self.feed(data[start : start + CHUNK_MAX])
            while self.look().is_pending:
                self.work(steps)
                yield self.take()


def main():
    with Session(load(sys.argv[1])) as session:
        for line in sys.stdin.buffer:
            for piece in session.answers(line):
                sys.stdout.buffer.write(piece)
                sys.stdout.buffer.flush()


if __name__ == "__main__":
    main()
