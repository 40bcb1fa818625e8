"""A game written back as KIF, with what its moves were worth as comments: in both forms from which front ends draw a
curve, `**解析 .. 評価値 N 読み筋 ..` and `*#評価値=N`. All that the record says stays in it."""

import re
from typing import Optional, Sequence

from ..mates import missed
from ..records.board import EVEN, Board, Square
from ..records.japanese import HANDICAPS, RANKS, set_handicap
from ..records.kif import ENDS as KIF_ENDS
from ..records.kif import is_comment
from ..records.notation import LETTERS, kif, line_of, parts_of

from .values import PAWN, Analysis, Value
from .words import WON, Made, in_line, lost_words, pawns

ENDS = {
    "resign": "投了",
    "TORYO": "投了",
    "win": "入玉勝ち",
    "KACHI": "入玉勝ち",
    "TIME_UP": "切れ負け",
    "timeout": "切れ負け",
    "ILLEGAL_MOVE": "反則負け",
    "SENNICHITE": "千日手",
    "JISHOGI": "持将棋",
    "TSUMI": "詰み",
    "FUZUMI": "不詰",
    "HIKIWAKE": "引き分け",
    "draw": "引き分け",
}
# A line that names the encoding of the record, in place of which stands that of what is written.
ENCODING = re.compile(r"#KIF\b.*encoding", re.I)
HEAD = "#KIF version=2.0 encoding=UTF-8"
MATE = 30_000  # a mate on a front end's curve
COUNTS = ["", "", *RANKS[1:], "十", *(f"十{one}" for one in RANKS[:8])]


def hand_of(board: Board, black: bool) -> str:
    """The pieces that a side has in hand."""
    return "　".join(LETTERS[role] + COUNTS[count] for role, count in board.hand(black)) or "なし"


def diagram_of(board: Board) -> list[str]:
    """A first position that has no name."""
    out = [f"後手の持駒：{hand_of(board, False)}", "  ９ ８ ７ ６ ５ ４ ３ ２ １", "+---------------------------+"]
    for rank in range(1, 10):
        row = ""
        for file in range(9, 0, -1):
            black, role = board.squares.get((file, rank), (True, ""))
            letter = {"+L": "杏", "+N": "圭", "+S": "全", "": "・"}.get(role) or LETTERS[role]
            row += f"{' ' if black else 'v'}{letter}"
        out.append(f"|{row}|{RANKS[rank - 1]}")
    turn = "先手番" if board.black else "後手番"
    return [*out, "+---------------------------+", f"先手の持駒：{hand_of(board, True)}", turn]


def start_of(board: Board) -> list[str]:
    """The first position."""
    if board.sfen() == Board(EVEN).sfen():
        return ["手合割：平手"]
    for name in HANDICAPS:
        other = Board()
        set_handicap(other, name)
        if other.sfen() == board.sfen():
            return [f"手合割：{name}"]
    return diagram_of(board)


def end_of(analysis: Analysis) -> str:
    """The word by which the game ends."""
    end = analysis.game.end
    if end in WON:
        return "投了"
    return ENDS.get(end, end if end in KIF_ENDS else "中断")


def points_of(value: Value) -> int:
    """A value on a front end's curve: hundredths of a pawn won, for Black."""
    cp, mate = value
    if mate is None:
        return round(100 * (cp or 0) / PAWN)
    return MATE if mate > 0 else -MATE


def line_words(board: Board, moves: Sequence[str], last: Optional[Square]) -> str:
    """Moves from a position on as front ends write them: `▲７六歩(77) △３四歩(33)`."""
    board, words = board.copy(), []
    for text in moves:
        words.append(f"{'▲' if board.black else '△'}{kif(board, text, last)}")
        last = parts_of(board, text)[1]
        board.play(text)
    return " ".join(words)


def comments_of(analysis: Analysis, plies: int, made: Made) -> list[str]:
    """What is said of the position after a move, and of the move where it is marked."""
    if plies >= analysis.count():
        return []
    row, marks = analysis.row(plies), analysis.marks()
    points, last = points_of(row.worth), analysis.ends[plies + 1]
    line = line_words(analysis.boards[plies + 1], analysis.shown(plies + 1), last)
    out = [f"**解析 0 深さ {analysis.depth} 評価値 {points} 読み筋 {line}".rstrip(), f"*#評価値={points}"]
    if plies in marks:
        board, last = analysis.boards[plies], analysis.ends[plies]
        number, lost = marks.index(plies) + 1, lost_words(analysis, plies, made)
        out.append("*" + made.say("record mark", number=number, lost=lost))
        if analysis.is_dear(plies):
            words = line_of(board, analysis.shown(plies) or [row.best], made.pieces, last)
            out.append("*" + made.say("record best", line=words, value=pawns(row.value, made)))
    if words := missed.words_of(analysis, plies, made):
        out.append(f"*{words}")
    return out


def made_comment(analysis: Analysis, made: Made) -> str:
    """What is said at the beginning."""
    words = {"program": in_line(made.program), "depth": analysis.depth, "evaluation": in_line(made.evaluation)}
    return "*" + made.say("record made", **words)


def kept_lines(analysis: Analysis, made: Made) -> list[str]:
    """The lines of a record in KIF with the comments between them, behind those that stand there."""
    game = analysis.game
    lines = list(game.lines)
    ours = {move.line: comments_of(analysis, plies, made) for plies, move in enumerate(game.moves)}
    first = game.moves[0].line if game.moves else len(lines) + 1
    out, waiting = [HEAD], list[str]()
    for number, line in enumerate(lines, 1):
        if ENCODING.match(line):
            continue
        if number == first:
            out.append(made_comment(analysis, made))
        if waiting and not is_comment(line):
            out, waiting = out + waiting, []
        out.append(line)
        waiting = ours.get(number, waiting)
    return out + waiting


def time_of(seconds: float, spent: float) -> str:
    """What a move took, and its side so far."""
    taken, all_of = int(seconds), int(spent)
    return f"   ({taken // 60:2}:{taken % 60:02}/{all_of // 3600:02}:{all_of // 60 % 60:02}:{all_of % 60:02})"


def written_lines(analysis: Analysis, made: Made) -> list[str]:
    """A record in another form as lines of KIF."""
    game, boards, lasts = analysis.game, analysis.boards, analysis.ends
    head = [line for line in game.before if not ENCODING.match(line)]
    keys = {line.replace(":", "：", 1).partition("：")[0].strip() for line in head}
    told = [("開始日時", "date"), ("棋戦", "event"), ("場所", "site"), ("先手", "black"), ("後手", "white")]
    out = [HEAD, *map(in_line, head)]
    out += [f"{key}：{in_line(game.head[name])}" for key, name in told if name in game.head and key not in keys
            and {"先手": "下手", "後手": "上手"}.get(key) not in keys]  # fmt: skip
    if not keys & {"手合割"} and not any(line.startswith("|") for line in head):
        out += start_of(boards[0])
    out += ["手数----指手---------消費時間--", *map(in_line, game.comments.get(0, [])), made_comment(analysis, made)]
    spent = {True: 0.0, False: 0.0}
    for plies, move in enumerate(game.moves):
        time = ""
        if move.seconds is not None:
            spent[boards[plies].black] += move.seconds
            time = time_of(move.seconds, spent[boards[plies].black])
        out.append(f"{plies + 1:4} {kif(boards[plies], move.text, lasts[plies])}{time}")
        out += map(in_line, game.comments.get(plies + 1, []))
        out += comments_of(analysis, plies, made)
    return [*out, f"{len(game.moves) + 1:4} {end_of(analysis)}", *game.behind]


def record_of(analysis: Analysis, made: Made) -> str:
    """The record with its comments."""
    lines = kept_lines(analysis, made) if analysis.game.lines else written_lines(analysis, made)
    text = "\n".join(lines)
    return text if text.endswith("\n") else f"{text}\n"
