"""Game records as players have them: USI's words, KIF, KI2 and CSA. What does not fit is told with its line and
column. Which games are legal is left to the program that is asked."""

from . import csa, kif, usi
from .board import Board
from .encoding import plain, split_lines, want_text
from .game import MOVES_MAX, Game, Move, Note, Unreadable

__all__ = ["BYTES_MAX", "Board", "Game", "Move", "Note", "Unreadable", "read_games"]

BYTES_MAX = 4_000_000  # longer records are refused
FORMS = ((usi.begins, usi.read), (csa.begins, csa.read), (kif.begins, kif.read))


def games_of(lines: list[str]) -> list[Game]:
    """The games of a record's lines, by the form that its first line shows."""
    for number, line in enumerate(lines, 1):
        text = line.strip()
        if not text or text.startswith("#"):
            continue
        for begins, read in FORMS:
            if begins(text):
                return read(lines)
        if usi.is_log(lines):
            return usi.read(lines)
        column = line.index(text[0]) + 1
        raise Unreadable(number, column, "neither USI's moves nor KIF nor KI2 nor CSA")
    raise Unreadable(1, 1, "an empty record")


def read_games(data: bytes) -> list[Game]:
    """The games of a record, one at least."""
    if len(data) > BYTES_MAX:
        raise Unreadable(1, 1, f"a record of more than {BYTES_MAX:,} bytes")
    lines = split_lines(data)
    want_text(lines)
    games = games_of([plain(line) for line in lines])
    for game in games:
        if len(game.moves) > MOVES_MAX:
            late = game.moves[MOVES_MAX]
            raise Unreadable(late.line, late.column, f"a game of more than {MOVES_MAX:,} moves")
    return games
