"""Why a move was a slip: what the other side threatened before it, what the move itself left hanging, and what it
missed."""

from typing import NamedTuple, Optional, Sequence

from ..engine import Answer, Engine
from ..errors import Refused
from ..records.board import Board
from ..records.notation import line_of, parts_of

from .values import Analysis, value_at, worth_at

THREAT_DEPTH = 3
THREAT = 400  # what a threat gains, in hundredths of a pawn: two pawns won, or more
# What pieces are worth, in hundredths of a pawn, by the evaluations Plain and Exchange; Hand counts a tenth more for
# those in hand.
POINTS = {"P": 100, "L": 300, "N": 400, "S": 500, "G": 600, "B": 800, "R": 1000, "K": 0}
PROMOTED = {"+P": 600, "+L": 600, "+N": 600, "+S": 600, "+B": 1100, "+R": 1300}


class Threat(NamedTuple):
    """What the other side would do before a move, if it had the turn: its line, and what that gains in hundredths of a
    pawn or the plies to its mate; `remains` says that the same still gains or mates after the move. In check there is
    no threat: the other side's move would take the king."""

    is_check: bool = False
    line: Sequence[str] = ()
    gain: int = 0
    mate: Optional[int] = None
    remains: bool = False

    @property
    def is_one(self) -> bool:
        """Whether it gains enough to be called a threat."""
        return self.mate is not None or self.gain >= THREAT


def balance_of(board: Board, black: bool, evaluation: str) -> int:
    """A side's material less that of the other side, hands included."""
    total = 0
    for side, role in board.squares.values():
        total += (POINTS | PROMOTED)[role] * (1 if side == black else -1)
    for (side, role), count in board.held.items():
        tenths = 11 if evaluation == "Hand" else 10
        total += POINTS[role] * tenths // 10 * count * (1 if side == black else -1)
    return total


def turned(board: Board) -> Board:
    """The position with the other side to move."""
    other = board.copy()
    other.black = not board.black
    return other


def threat_of(board: Board, answer: Answer, evaluation: str) -> Threat:
    """The threat in a position, from the answer for the turned one at depth `THREAT_DEPTH`."""
    if not answer.lines:
        return Threat()
    line, other = answer.lines[-1], turned(board)
    if line.cp is not None:
        return Threat(line=line.pv, gain=line.cp - balance_of(other, other.black, evaluation))
    return Threat(line=line.pv, mate=line.mate if (line.mate or 0) > 0 else None)


def look_at(client: Engine, board: Board, move: str, evaluation: str) -> Threat:
    """The threat before a move, looked at by the program."""
    if board.is_checked(board.black):
        return Threat(is_check=True)
    threat = threat_of(board, client.analyse(f"sfen {turned(board).sfen()}", THREAT_DEPTH), evaluation)
    if not threat.is_one:
        return threat
    try:
        after = client.analyse(f"sfen {board.sfen()} moves {move} {threat.line[0]}", THREAT_DEPTH - 1)
    except Refused:  # the move has made it illegal
        return threat
    cp, mate = value_at(after, THREAT_DEPTH - 1)
    gain = 0 if cp is None else balance_of(board, board.black, evaluation) - cp
    return threat._replace(remains=gain >= THREAT or mate is not None and mate <= 0)


def is_given(analysis: Analysis, plies: int) -> bool:
    """Whether most of what a move lost was given away; else a gain was missed. Material before it tells them apart."""
    depth = analysis.depth
    (best, _), (played, _) = value_at(analysis.answers[plies], depth), worth_at(analysis.answers[plies + 1], depth)
    if played is None or best is None:
        return True
    board = analysis.boards[plies]
    level = balance_of(board, board.black, analysis.evaluation)
    return min(best, level) - played >= best - max(played, level)


def cause_of(analysis: Analysis, plies: int) -> str:
    """Why a slip was one, as a key of the texts; nothing where that was not looked at."""
    _, mate = value_at(analysis.answers[plies], analysis.depth)
    if plies in analysis.missed or mate is not None and mate > 0:
        return "missed a mate"
    threat = analysis.threats.get(plies)
    if threat is None:
        return ""
    if not is_given(analysis, plies):
        return "missed a gain"
    answer = analysis.answers[plies + 1].lines
    takes_it = bool(answer) and parts_of(analysis.boards[plies + 1], answer[-1].pv[0])[1] == analysis.ends[plies + 1]
    return "overlooked" if threat.remains and not takes_it else "left hanging"


def told_line(analysis: Analysis, plies: int, pieces: str) -> list[str]:
    """The moves of what was threatened before a move, as people write them."""
    board = turned(analysis.boards[plies])
    return line_of(board, analysis.threats[plies].line, pieces).split(" ")
