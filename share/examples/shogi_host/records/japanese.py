"""How Japanese records write pieces, numbers, handicaps and moves: `７六歩(77)` as in KIF, and `５八金右` as in
KI2, whose piece is found among the legal moves."""

import re
from typing import Optional

from .board import NAMES, SET, Board, Square, name_of

ROLES = dict(zip("歩 香 桂 銀 金 角 飛 玉 王 と 成香 杏 成桂 圭 成銀 全 馬 龍 竜".split(),
                 "P L N S G B R K K +P +L +L +N +N +S +S +B +R +R".split()))  # fmt: skip
FILES = "１２３４５６７８９"
RANKS = "一二三四五六七八九"
COUNTS = {"十": 10, **{f"十{one}": 10 + at for at, one in enumerate(RANKS[:8], 1)}}
COUNTS.update((one, at) for at, one in enumerate(RANKS, 1))
MARKS = {"▲": True, "☗": True, "▼": True, "△": False, "☖": False, "▽": False}

# White's two ranks where pieces are given as a handicap (the names of Kifu for Windows); a whole board
# where more is taken away, and then White's hand.
HANDICAPS = {
    "香落ち": "lnsgkgsn1/1r5b1",
    "左香落ち": "lnsgkgsn1/1r5b1",
    "右香落ち": "1nsgkgsnl/1r5b1",
    "角落ち": "lnsgkgsnl/1r7",
    "飛落ち": "lnsgkgsnl/7b1",
    "飛車落ち": "lnsgkgsnl/7b1",
    "飛香落ち": "lnsgkgsn1/7b1",
    "二枚落ち": "lnsgkgsnl/9",
    "三枚落ち": "lnsgkgsn1/9",
    "四枚落ち": "1nsgkgsn1/9",
    "五枚落ち": "2sgkgsn1/9",
    "右五枚落ち": "2sgkgsn1/9",
    "左五枚落ち": "1nsgkgs2/9",
    "六枚落ち": "2sgkgs2/9",
    "左七枚落ち": "2sgkg3/9",
    "右七枚落ち": "3gkgs2/9",
    "八枚落ち": "3gkg3/9",
    "十枚落ち": "4k4/9",
    "トンボ": "4k4/1r5b1",
    "裸玉": "4k4/9/9",
    "歩三兵": "4k4/9/9",
}
BELOW = "/ppppppppp/9/9/9/PPPPPPPPP/1B5R1/LNSGKGSNL".split("/")

PLACE = r"(?:同[\s　]*|([1-9１-９])([一二三四五六七八九1-9１-９])同?[\s　]*)"
MOVE = re.compile(
    PLACE + r"(成香|成桂|成銀|[歩香桂銀金角飛玉王と杏圭全馬龍竜])"
    r"([右左直上行入引下寄]*)(不成|成らず|生|成る|成)?(打)?[\s　]*(?:\(([1-9])([1-9])\))?"
)
IS_MOVE = re.compile(r"同|[1-9１-９][一二三四五六七八九1-9１-９]")


def set_handicap(board: Board, name: str) -> None:
    """Sets the board of a handicap, where White begins."""
    rows = HANDICAPS[name].split("/")
    board.squares = Board("/".join(rows + BELOW[len(rows) - 1 :])).squares
    board.black = False
    if name == "歩三兵":
        board.hold(False, "P", 3)


def set_hand(board: Board, black: bool, text: str) -> None:
    """Puts a hand on the stand, as `飛　歩三`."""
    for word in text.split():
        if word == "なし":
            continue
        match = re.fullmatch(r"(.)(\d+|[十一二三四五六七八九]*)", word)
        role = ROLES.get(match[1], "K") if match else "K"
        if match is None or role not in SET or not match[2].isdigit() and match[2] not in ("", *COUNTS):
            raise ValueError(f"no pieces in hand: {word}")
        board.hold(black, role, int(match[2]) if match[2].isdigit() else COUNTS.get(match[2], 1))


def holds_pieces(text: str) -> bool:
    """Whether a text is one of pieces in hand."""
    try:
        set_hand(Board(), True, text)
    except ValueError:
        return False
    return bool(text.split())


def is_way(board: Board, way: str, origin: Square, to: Square) -> bool:
    """Whether a piece goes from a square to another one in a way of KI2 (not by left and right), for its side."""
    forward = (origin[1] - to[1]) * (1 if board.black else -1)
    if way in "上行入":
        return forward > 0
    if way in "引下":
        return forward < 0
    if way == "寄":
        return forward == 0
    return forward == 1 and origin[0] == to[0]  # 直


def origin_of(board: Board, role: str, to: Square, ways: str) -> Optional[Square]:
    """Where the piece stands that goes to a square in these ways, or None where it has to be dropped."""
    found = board.origins(role, to)
    if not found and not ways and board.may_drop(role, to):
        return None
    for way in ways.replace("右", "").replace("左", ""):
        found = [origin for origin in found if is_way(board, way, origin, to)]
    if "右" in ways or "左" in ways:
        # Files are counted from Black's right.
        edge = min if ("右" in ways) == board.black else max
        found = [origin for origin in found if origin[0] == edge(other[0] for other in found)]
    name = next(name for name, of in ROLES.items() if of == role)
    if len(found) != 1:
        many = "no" if not found else "more than one"
        raise ValueError(f"{many} {name} of {NAMES[board.black]}'s can go to {name_of(to)}{ways and f' as {ways}'}")
    return found[0]


def made_move(board: Board, text: str, last: Optional[Square]) -> tuple[str, Square]:
    """Makes a move of a record; `last` is the square where the one before ended. The move in USI's words, and where it
    ends."""
    text = text.strip()
    mark = MARKS.get(text[:1])
    if mark is not None:
        if mark != board.black:
            raise ValueError(f"it is {NAMES[board.black]}'s turn")
        text = text[1:].lstrip()
    match = MOVE.match(text)
    if match is None:
        raise ValueError(f"no move in KIF's words: {text.split('(', 1)[0].strip()}")
    file, rank, piece, ways, promotes, drops, from_file, from_rank = match.groups()
    if file:
        to = int(file), RANKS.index(rank) + 1 if rank in RANKS else int(rank)
    elif last:
        to = last
    else:
        raise ValueError("no move before it that ends on the same square")
    role = ROLES[piece]
    promote = promotes in ("成", "成る")
    origin = (int(from_file), int(from_rank)) if from_file else None
    if origin is None and not drops:
        origin = origin_of(board, role, to, ways)
    if origin is None:
        return board.drop(role, to), to
    before = board.role_on(origin)
    if role != before:
        raise ValueError(f"the piece on {name_of(origin)} is {before}, and no {piece}")
    return board.move(origin, to, promote), to
