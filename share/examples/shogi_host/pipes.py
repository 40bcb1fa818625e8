"""Lines over pipes and sockets, and programs that are talked to by them."""

import contextlib
import os
import select
import subprocess
import time
from typing import Optional, Sequence

from .errors import NotStarted


class Lines:
    """Lines that come from one descriptor, and bytes that go to another one."""

    def __init__(self, source: int, sink: int):
        self.source, self.sink, self.unread = source, sink, b""

    def write(self, data: bytes) -> None:
        """Writes all of it. Raises `OSError` where nobody reads any more."""
        while data:
            data = data[os.write(self.sink, data) :]

    def read(self, end: Optional[float]) -> bytes:
        """The next line, without its LF; bytes behind it stay for the next call. Raises `TimeoutError` where it has not
        come by the time `end` (of `time.monotonic`), and `EOFError` where none comes any more."""
        wait = select.poll()
        wait.register(self.source, select.POLLIN)
        while b"\n" not in self.unread:
            if end is not None and not wait.poll(max(end - time.monotonic(), 0) * 1_000):
                raise TimeoutError
            try:
                data = os.read(self.source, 65_536)
            except OSError:
                data = b""
            if not data:
                raise EOFError
            self.unread += data
        line, self.unread = self.unread.split(b"\n", 1)
        return line


class Program:
    """A program that runs, with its lines. It is in a session of its own, so that Ctrl-C reaches the script alone."""

    def __init__(self, command: Sequence[str], is_quiet: bool = False):
        """Starts it; what it says on standard error is dropped if it is to be quiet. Raises `NotStarted` where that
        fails."""
        pipe, error = subprocess.PIPE, subprocess.DEVNULL if is_quiet else None
        try:
            self.process = subprocess.Popen(
                command, stdin=pipe, stdout=pipe, stderr=error, bufsize=0, start_new_session=True
            )
        except OSError as why:
            raise NotStarted(f"{command[0]}: {why.strerror or why}") from why
        assert self.process.stdin is not None and self.process.stdout is not None
        self.streams = (self.process.stdin, self.process.stdout)
        self.lines = Lines(self.process.stdout.fileno(), self.process.stdin.fileno())

    def close(self, patience: float = 0.0) -> None:
        """Ends it: kills it where it does not end, within so many seconds, by the end of its input."""
        for stream in self.streams:
            with contextlib.suppress(OSError):
                stream.close()
        try:
            self.process.wait(patience)
        except subprocess.TimeoutExpired:
            self.process.kill()
            self.process.wait()

    def status(self) -> Optional[int]:
        """The status with which it has ended, which may take a second; None where it runs on."""
        with contextlib.suppress(subprocess.TimeoutExpired):
            return self.process.wait(1)
        return None


def end_words(status: Optional[int]) -> str:
    """How a program went away that says no more, by its status."""
    if status is None:
        return "it has closed its output"
    return f"it has ended with signal {-status}" if status < 0 else f"it has ended with status {status}"
