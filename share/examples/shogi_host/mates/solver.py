"""Asks `usi_host mate` for mates by checks, and `usi_host moves` for legal moves."""

import re
import subprocess
import time
from dataclasses import dataclass
from typing import Optional

from ..errors import Gone, Refused, TooSlow
from ..pipes import Program, end_words

PLIES = range(1, 16, 2)  # how long the mates may be that are looked for
MATE = re.compile(r"mate (\d+)((?: \S+)*)")
TOO_LONG = "it is too long"
REFUSAL = re.compile(r"error: (?:line \d+: )?(.*)")


@dataclass(frozen=True)
class Mate:
    """The shortest mate by checks: its line, and the keys at each of the attacker's positions on it, of which the
    first is the one on the line."""

    line: tuple[str, ...]
    keys: tuple[tuple[str, ...], ...]

    @property
    def plies(self) -> int:
        """How many plies it takes."""
        return len(self.line)


def moved(position: str, *moves: str) -> str:
    """A position, as an SFEN with or without moves behind it, after more moves."""
    if not moves:
        return position
    return " ".join([position, *([] if " moves " in position else ["moves"]), *moves])


class Solver:
    """A program that answers one position after another. An answer may take `timeout` seconds, or as long as it takes
    where that is None; after one that takes longer the program is ended, and started again for the next."""

    def __init__(self, program: str, plies: int, timeout: Optional[float] = None):
        self.program, self.plies, self.timeout = program, plies, timeout
        self.running: Optional[Program] = None

    def close(self) -> None:
        """Ends the program."""
        if self.running is not None:
            self.running.close()
        self.running = None

    def gone(self, running: Program) -> Gone:
        """How the program went away."""
        status = running.status()
        self.close()
        if status == 2:
            return Gone(f"{self.program}: it has no command `mate`")
        return Gone(f"{self.program}: {end_words(status)}")

    def read_line(self, running: Program, end: Optional[float]) -> str:
        """The next line, which has to come before the time `end`."""
        try:
            return running.lines.read(end).decode()
        except TimeoutError as why:
            self.close()
            raise TooSlow(f"no answer within {self.timeout:g} s") from why
        except EOFError as why:
            raise self.gone(running) from why

    def ask(self, position: str) -> Optional[Mate]:
        """The shortest mate, or None where there is none so short. Raises `Refused` where the position is refused."""
        if self.running is None:
            self.running = Program([self.program, "mate", "--plies", str(self.plies), "--line", "--keys"], is_quiet=True)
        running = self.running
        end = None if self.timeout is None else time.monotonic() + self.timeout
        try:
            running.lines.write(position.encode() + b"\n")
        except OSError as why:
            raise self.gone(running) from why
        first = self.read_line(running, end)
        if refusal := REFUSAL.fullmatch(first):
            if refusal[1] == TOO_LONG:
                self.close()  # the program reads nothing after such a line
            raise Refused(refusal[1])
        found = MATE.fullmatch(first)
        if found is None:
            return None
        keys = []
        while (words := self.read_line(running, end).split())[0] == "keys":
            keys.append(tuple(words[1:]))
        return Mate(tuple(found[2].split()), tuple(keys))


def legal_moves(program: str, position: str) -> list[str]:
    """The legal moves of a position. Raises `Refused` where it is refused."""
    words = [program, "moves", "--sfen", position]
    listed = subprocess.run(words, stdin=subprocess.DEVNULL, capture_output=True, text=True, check=False)
    if listed.returncode:
        raise Refused(listed.stderr.partition("\n")[0].removeprefix("error: --sfen: "))
    return listed.stdout.split()
