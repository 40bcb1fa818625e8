"""A board with its pieces in hand and arrows, as SVG."""

import math
from typing import NamedTuple, Optional

from ..records.board import Board, Square
from ..records.japanese import RANKS
from ..records.notation import parts_of

from .svg import path, text_at

CELL = 40
STAND = 46  # the width of a stand with pieces in hand
LEFT, UP = STAND + 8, 22
SIDE = 9 * CELL
WIDTH, HEIGHT = LEFT + SIDE + 22 + STAND, UP + SIDE + 6
SIGNS = dict(zip("P L N S G B R K +P +L +N +S +B +R".split(), "歩香桂銀金角飛玉と杏圭全馬龍"))
HAND = "RBGSNLP"


class Arrow(NamedTuple):
    """A move to be shown, the name of its color, and whether it is the other side's."""

    move: str
    color: str
    is_other: bool = False


def center(square: Square) -> tuple[float, float]:
    """The middle of a square."""
    return LEFT + (9 - square[0] + 0.5) * CELL, UP + (square[1] - 0.5) * CELL


def sign_of(role: str, pieces: str) -> str:
    """The letters on a piece."""
    return SIGNS[role] if pieces == "japanese" else role


def piece_at(x: float, y: float, black: bool, role: str, pieces: str) -> str:
    """A piece: a shape that points forward, with its letters; Japanese ones stand on their heads for White."""
    turn = "" if black else f' transform="rotate(180 {x:.1f} {y:.1f})"'
    shape = f"M{x:.1f} {y - 17:.1f}l10 5l4 27h-28l4 -27z"
    words = {"text_anchor": "middle", "fill": "var(--red)" if role.startswith("+") else "var(--ink)"}
    if pieces == "japanese":
        letters = text_at(x, y + 8.5, sign_of(role, pieces), font_size=21, **words)
        return f'<g{turn}>{path(shape, fill="var(--piece)", stroke="var(--edge)")}{letters}</g>'
    letters = text_at(x, y + (7 if black else 3), sign_of(role, pieces), font_size=17, font_weight="bold", **words)
    return f'<g{turn}>{path(shape, fill="var(--piece)", stroke="var(--edge)")}</g>{letters}'


def hand_spots(board: Board, black: bool) -> dict[str, tuple[float, float]]:
    """Where the kinds of pieces stand that a side has in hand."""
    x = LEFT + SIDE + 22 + STAND / 2 if black else STAND / 2
    spots = {}
    for at, (role, _) in enumerate(board.hand(black)):
        spots[role] = x, UP + SIDE - CELL * (at + 0.5) if black else UP + CELL * (at + 0.5)
    return spots


def hand_of(board: Board, black: bool, pieces: str) -> str:
    """The pieces that a side has in hand, with their numbers."""
    spots, out = hand_spots(board, black), []
    for role, count in board.hand(black):
        x, y = spots[role]
        out.append(piece_at(x - 5, y, black, role, pieces))
        if count > 1:
            out.append(text_at(x + 11, y + 13, str(count), font_size=13, fill="var(--ink)"))
    return "".join(out)


def arrow_of(board: Board, arrow: Arrow) -> str:
    """A move from the middle of its square, or from the hand, to the square where it ends."""
    origin, to, role, _ = parts_of(board, arrow.move)
    x, y = center(origin) if origin else hand_spots(board, board.black != arrow.is_other)[role]
    end_x, end_y = center(to)
    length = math.hypot(end_x - x, end_y - y)
    right, down = (end_x - x) / length, (end_y - y) / length
    tip_x, tip_y = end_x - right * 4, end_y - down * 4
    neck_x, neck_y = tip_x - right * 15, tip_y - down * 15
    wings = f"L{neck_x - down * 8:.1f} {neck_y + right * 8:.1f}L{neck_x + down * 8:.1f} {neck_y - right * 8:.1f}z"
    shaft = path(
        f"M{x:.1f} {y:.1f}L{neck_x:.1f} {neck_y:.1f}",
        stroke=f"var({arrow.color})",
        stroke_width=5,
        stroke_linecap="round",
    )
    return f'<g opacity="0.85">{shaft}{path(f"M{tip_x:.1f} {tip_y:.1f}{wings}", fill=f"var({arrow.color})")}</g>'


def grid_of(pieces: str, label: str, last: Optional[Square] = None) -> str:
    """The board without pieces, not yet closed, the square where the move before ended shaded."""
    out = [
        f'<svg class="board" viewBox="0 0 {WIDTH} {HEIGHT}" role="img" aria-label="{label}">',
        f'<rect x="{LEFT}" y="{UP}" width="{SIDE}" height="{SIDE}" fill="var(--board)" stroke="var(--edge)" '
        'stroke-width="2"/>',
    ]
    if last:
        x, y = center(last)
        out.append(
            f'<rect x="{x - CELL / 2}" y="{y - CELL / 2}" width="{CELL}" height="{CELL}" fill="var(--seen)"/>'
        )
    inner = "".join(f"M{LEFT + CELL * n} {UP}v{SIDE}M{LEFT} {UP + CELL * n}h{SIDE}" for n in range(1, 9))
    out.append(path(inner, stroke="var(--edge)", stroke_width=0.8))
    for n in range(1, 10):
        x, y = center((n, n))
        rank = RANKS[n - 1] if pieces == "japanese" else "abcdefghi"[n - 1]
        out.append(text_at(x, UP - 7, str(n), font_size=13, text_anchor="middle", fill="var(--soft)"))
        out.append(text_at(LEFT + SIDE + 12, y + 5, rank, font_size=13, text_anchor="middle", fill="var(--soft)"))
    return "".join(out)


def diagram_of(board: Board, pieces: str, arrows: list[Arrow], label: str, last: Optional[Square] = None) -> str:
    """The board with its pieces and arrows."""
    out = [grid_of(pieces, label, last)]
    for square, (black, role) in board.squares.items():
        out.append(piece_at(*center(square), black, role, pieces))
    out += [hand_of(board, black, pieces) for black in (True, False)]
    out += [arrow_of(board, arrow) for arrow in arrows]
    return "".join([*out, "</svg>"])
