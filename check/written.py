"""Writes a game as KIF, as KI2 and as CSA, by the rules as bench/minimax_rows.py has them."""

import os
import sys

from checks import TOP

sys.path.insert(0, os.path.join(TOP, "bench"))

from minimax_rows import after, legal_codes, read, text  # noqa: E402

START = "lnsgkgsnl/1r5b1/ppppppppp/9/9/9/PPPPPPPPP/1B5R1/LNSGKGSNL b -"
KIF = dict(zip("P L N S G B R K +P +L +N +S +B +R".split(),
               "歩 香 桂 銀 金 角 飛 玉 と 成香 成桂 成銀 馬 龍".split()))  # fmt: skip
CSA = dict(zip("P L N S G B R K +P +L +N +S +B +R".split(),
               "FU KY KE GI KI KA HI OU TO NY NK NG UM RY".split()))  # fmt: skip


def moves_of(words):
    """The moves, each with whose it is, what moves, whether it ends where the one before did, whether it might have
    promoted, and the squares from which pieces of its kind may go where it ends."""
    position, last = read(START), None
    for word in words:
        legal = legal_codes(position)
        move = next(move for move in legal if text(move) == word)
        board, _, black = position
        origin, to = (None, move[2]) if move[0] == "drop" else (move[1], move[2])
        role = move[1] if origin is None else board[origin][1]
        others = [m for m in legal if m[0] == "move" and m[2] == to]
        may = any(m[1] == origin and m[3] for m in others)
        origins = {m[1] for m in others if board[m[1]][1] == role}
        yield black, origin, to, role, origin is not None and move[3], to == last, may, origins
        position, last = after(position, move), to


def place_of(to, same):
    return "同　" if same else "１２３４５６７８９"[to[0] - 1] + "一二三四五六七八九"[to[1] - 1]


def kif_of(words):
    lines = ["# ---- a game ----", "開始日時：2020/01/02", "手合割：平手　　", "先手：甲", "後手：乙"]
    lines.append("手数----指手---------消費時間--")
    for number, (_, origin, to, role, promote, same, _, _) in enumerate(moves_of(words), 1):
        place = place_of(to, same)
        how = "打" if origin is None else f"{'成' * promote}({origin[0]}{origin[1]})"
        lines += [f"{number:4} {place}{KIF[role]}{how}   ( 0:01/00:00:{number:02})", "*a note"]
    lines += [f"{len(words) + 1:4} 中断", f"まで{len(words)}手で中断", "", "変化：3手", "   3 ５八金(49)"]
    return "\n".join(lines) + "\n"


def way_of(black, origin, to, origins):
    """How a piece goes where others of its kind may go as well: up, level or back, and from which side, both said
    where one alone would do."""
    if origins == {origin}:
        return ""
    forward = (origin[1] - to[1]) * (1 if black else -1)
    if forward == 1 and origin[0] == to[0]:
        return "直"
    way = "上" if forward > 0 else "引" if forward < 0 else "寄"
    right = (to[0] - origin[0]) * (1 if black else -1)
    return ("右" if right > 0 else "左" if right < 0 else "") + way


def ki2_of(words):
    lines = ["開始日時：2020/01/02", "手合割：平手", "先手：甲", "後手：乙", ""]
    row = ""
    for black, origin, to, role, promote, same, may, origins in moves_of(words):
        if origin is None:
            how = "打" if origins else ""
        else:
            how = way_of(black, origin, to, origins) + ("成" if promote else "不成" if may else "")
        row += f"{'▲' if black else '△'}{place_of(to, same)}{KIF[role]}{how} "
        if len(row) > 50:
            lines, row = [*lines, row, "*a note"], ""
    return "\n".join([*lines, row, f"まで{len(words)}手で中断"]) + "\n"


def csa_of(words, between="\n"):
    lines = ["V2.2", "N+甲", "N-乙", "'a note", "PI", "+"]
    moves = []
    for number, (black, origin, to, role, promote, *_) in enumerate(moves_of(words), 1):
        places = "%d%d%d%d" % ((origin or (0, 0)) + to)
        piece = CSA["+" + role if promote else role]
        moves.append(f"{'+' if black else '-'}{places}{piece}{between}T{number}")
    return "\n".join([*lines, *moves, "%CHUDAN"]) + "\n"
