"""Names of openings and castles, from the table shapes.txt."""

import functools
import os
import re
from typing import NamedTuple, Optional

from ..records.board import Board, Square, square_of

from .values import Analysis

# An opening is looked for up to this ply, and a castle up to that one.
UP_TO = {"opening": 40, "castle": 80}
WORD = re.compile(r"(h?)([PLNSGBRK]|\.)(?:([1-9])([a-i]))?")


class Shape(NamedTuple):
    """A name in English and in Japanese, and what stands where as (role, square): no square is the hand, and no role
    an own piece of none."""

    kind: str
    names: tuple[str, str]
    pieces: list[tuple[str, Optional[Square]]]


def piece_of(word: str) -> tuple[str, Optional[Square]]:
    """A word of the table."""
    match = WORD.fullmatch(word)
    if match is None or bool(match[1]) == bool(match[3]):
        raise ValueError(f"no word of shapes.txt: {word}")
    return match[2].strip("."), square_of(match[3], match[4]) if match[3] else None


@functools.cache
def shapes() -> list[Shape]:
    """The shapes of the table."""
    with open(os.path.join(os.path.dirname(__file__), "shapes.txt"), encoding="utf-8") as file:
        rows = [line for line in file.read().splitlines() if line and not line.startswith("#")]
    out = []
    for kind, english, japanese, words in ([cell.strip() for cell in row.split("|")] for row in rows):
        out.append(Shape(kind, (english, japanese), [piece_of(word) for word in words.split()]))
    return out


def has(board: Board, black: bool, shape: Shape) -> bool:
    """Whether a side has a shape."""
    for role, square in shape.pieces:
        if square is None:
            if not board.held.get((black, role)):
                return False
            continue
        at = square if black else (10 - square[0], 10 - square[1])
        side, stands = board.squares.get(at, (None, ""))
        if (stands if side == black else "") != role:
            return False
    return True


def shape_of(analysis: Analysis, black: bool, kind: str) -> Optional[Shape]:
    """The opening or the castle of a side; None where it had none of the table."""
    boards = analysis.boards[: UP_TO[kind] + 1]
    found = [shape for shape in shapes() if shape.kind == kind and any(has(board, black, shape) for board in boards)]
    return max(reversed(found), key=lambda shape: len(shape.pieces)) if found else None
