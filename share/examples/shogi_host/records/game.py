"""A game as a record has it."""

from dataclasses import dataclass, field
from typing import NamedTuple, Optional


MOVES_MAX = 10_000  # longer games are refused


class Unreadable(Exception):
    """A record that cannot be read, from this line and column on, both counted from 1."""

    def __init__(self, line: int, column: int, why: str):
        super().__init__(f"{line}:{column}: {why}")


class Move(NamedTuple):
    """A move in USI's words, where it stands in the record, and the seconds that it took, where the record has them."""

    text: str
    line: int
    column: int
    seconds: Optional[float] = None


class Note(NamedTuple):
    """What was left out of a record, or not understood, and where it stands."""

    line: int
    column: int
    text: str

    def __str__(self) -> str:
        return f"{self.line}:{self.column}: {self.text}"


@dataclass
class Game:
    """`startpos` or `sfen ..` and where that stands, the moves from there, what the head says of the game (keys
    `black`, `white`, `event`, `date`, `site`, `handicap`) or of a problem (`title`, `author`, `length`), the word by
    which it ends, and notes. `comments` has what the record says of the position after so many moves, as lines of KIF:
    `*a note`, or `&a bookmark`. `before` and `behind` are the lines of a KIF's or KI2's head and those behind its last
    move; `lines` are all of a record in KIF with a line for each move, and else none."""

    start: str
    line: int
    column: int
    moves: list[Move] = field(default_factory=list)
    head: dict[str, str] = field(default_factory=dict)
    end: str = ""
    notes: list[Note] = field(default_factory=list)
    comments: dict[int, list[str]] = field(default_factory=dict)
    before: list[str] = field(default_factory=list)
    behind: list[str] = field(default_factory=list)
    lines: list[str] = field(default_factory=list)

    def note(self, line: int, column: int, text: str) -> None:
        """Adds a note."""
        self.notes.append(Note(line, column, text))

    def comment(self, line: str) -> None:
        """Adds a comment on the position after the last move so far."""
        self.comments.setdefault(len(self.moves), []).append(line)
