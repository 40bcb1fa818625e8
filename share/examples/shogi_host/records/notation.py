"""Moves as people write them: `☗３三角` with the words of KI2, `B-3c` as in the West, `３三角(88)` as in KIF."""

from typing import Optional, Sequence

from .board import USI_MOVE, Board, Square, name_of, square_of
from .japanese import FILES, RANKS, is_way

LETTERS = dict(zip("P L N S G B R K +P +L +N +S +B +R".split(),
                   "歩 香 桂 銀 金 角 飛 玉 と 成香 成桂 成銀 馬 龍".split()))  # fmt: skip
WAYS = ["", "上", "寄", "引", "直", "右", "左", "右上", "左上", "右寄", "左寄", "右引", "左引"]


def parts_of(board: Board, text: str) -> tuple[Optional[Square], Square, str, bool]:
    """Of a move in USI's words that is made next: where it begins (nowhere for a drop) and ends, what moves, and
    whether it promotes."""
    match = USI_MOVE.fullmatch(text)
    if match is None:
        raise ValueError(f"no move in USI's words: {text}")
    if match[6]:
        return None, square_of(match[7], match[8]), match[6], False
    origin = square_of(match[1], match[2])
    return origin, square_of(match[3], match[4]), board.squares[origin][1], match[5] == "+"


def narrowed(board: Board, way: str, origins: list[Square], to: Square) -> list[Square]:
    """Those of the origins that a way of KI2 means."""
    for letter in way.replace("右", "").replace("左", ""):
        origins = [origin for origin in origins if is_way(board, letter, origin, to)]
    if origins and ("右" in way or "左" in way):
        edge = (min if ("右" in way) == board.black else max)(origin[0] for origin in origins)
        origins = [origin for origin in origins if origin[0] == edge]
    return origins


def way_of(board: Board, origin: Square, to: Square, role: str) -> str:
    """The words that tell a piece from others of its kind that could go there."""
    origins = board.origins(role, to)
    ways = [way for way in WAYS if way != "直" or role not in ("+B", "+R")]
    return next((way for way in ways if narrowed(board, way, origins, to) == [origin]), "")


def japanese(board: Board, text: str, last: Optional[Square] = None) -> str:
    """The move that is made next as `☗３三角成`; `last` is where the one before ended."""
    origin, to, role, promotes = parts_of(board, text)
    place = "同" if to == last else FILES[to[0] - 1] + RANKS[to[1] - 1]
    if origin is None:
        how = "打" if board.origins(role, to) else ""
    else:
        how = way_of(board, origin, to, role)
        if board.may_promote(origin, to):
            how += "成" if promotes else "不成"
    return f"{'☗' if board.black else '☖'}{place}{LETTERS[role]}{how}"


def international(board: Board, text: str, last: Optional[Square] = None) -> str:
    """The move that is made next as `☗B-3c+`, with the square that it leaves where that is in doubt."""
    origin, to, role, promotes = parts_of(board, text)
    side = "☗" if board.black else "☖"
    if origin is None:
        return f"{side}{role}*{name_of(to)}"
    from_where = name_of(origin) if len(board.origins(role, to)) > 1 else ""
    end = "+" if promotes else "=" if board.may_promote(origin, to) else ""
    return f"{side}{role}{from_where}{'x' if to in board.squares else '-'}{name_of(to)}{end}"


def kif(board: Board, text: str, last: Optional[Square] = None) -> str:
    """The move that is made next as `３三角成(88)`."""
    origin, to, role, promotes = parts_of(board, text)
    place = "同　" if to == last else FILES[to[0] - 1] + RANKS[to[1] - 1]
    how = "打" if origin is None else f"{'成' * promotes}({origin[0]}{origin[1]})"
    return f"{place}{LETTERS[role]}{how}"


NOTATIONS = {"japanese": japanese, "international": international}


def line_of(board: Board, moves: Sequence[str], pieces: str, last: Optional[Square] = None) -> str:
    """Moves one after the other from a position on."""
    board, words = board.copy(), []
    for text in moves:
        words.append(NOTATIONS[pieces](board, text, last))
        last = parts_of(board, text)[1]
        board.play(text)
    return " ".join(words)
