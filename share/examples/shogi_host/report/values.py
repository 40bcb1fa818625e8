"""What each move of a game was worth and lost, from the answers for its positions, and which moves are marked."""

import functools
import math
import statistics
from typing import TYPE_CHECKING, NamedTuple, Optional, Sequence, Union

from ..engine import Answer, Line
from ..mates.solver import Mate
from ..records import Game
from ..records.board import Board, Square
from ..records.notation import parts_of

if TYPE_CHECKING:
    from .opinion import Opinion
    from .threats import Threat

WORST = 5  # so many moves are marked, at most
SLIP = 0.16  # a move that loses so much of the chance of winning is a slip
SCALE = 600  # the chance of winning is 1 / (1 + e^(-value / SCALE))
PAWN = 200  # a pawn that is won: one side has one more, and the other has one less
SHALLOWEST = 4  # the least depth of which two depths say something of a loss
PHASES = ("opening", "middle", "end")
MIDDLE, END = 3, 10  # after so many captures of pieces other than pawns these begin
ACCURACY_SOURCE = "https://lichess.org/page/accuracy"

Value = tuple[Optional[int], Optional[int]]  # hundredths of a pawn, or a mate in plies; one of them is None
Loss = Union[int, str]
NO_VALUE: Value = (None, None)  # of a row without a move
NO_LOSS: Loss = ""


class Row(NamedTuple):
    """A row of the table. Values are from Black's side; `drawn` is the mean of the last two depths."""

    ply: int
    side: str
    move: str
    value: Value
    best: str
    worth: Value
    loss: Loss
    drawn: Value


class Marked(NamedTuple):
    """What is told of a row beyond the table: the chance of winning that its move lost, the best line, and the line
    that answers the move."""

    lost: float
    best_line: Sequence[str]
    answer: Sequence[str]


def for_black(value: Value, side: str) -> Value:
    """A value of the side to move, as Black sees it; it is its own inverse."""
    cp, mate = value
    sign = 1 if side == "Black" else -1
    return None if cp is None else sign * cp, None if mate is None else sign * mate


def line_at(answer: Answer, depth: int) -> Optional[Line]:
    """The best move's info line of a depth; None where no move is legal."""
    return answer.line(depth)


def value_at(answer: Answer, depth: int) -> Value:
    """What a position is worth to the side to move at a depth; `mate 0` where it is mated."""
    line = line_at(answer, depth)
    return (line.cp, line.mate) if line else (None, 0)


def worth_at(after: Answer, depth: int) -> Value:
    """What a move is worth at a depth, from the answer for the position after it, one ply less deep."""
    cp, mate = value_at(after, depth - 1)
    if cp is not None:
        return -cp, None
    mate = mate or 0
    return None, 1 - mate if mate <= 0 else -1 - mate


def chance(value: Value) -> float:
    """The chance of winning that a value stands for, for the side whose value it is."""
    cp, mate = value
    if cp is not None:
        return 1 / (1 + math.exp(-cp / SCALE))
    return 1.0 if (mate or 0) > 0 else 0.0


def chance_for_black(row: Row) -> float:
    """Black's chance of winning by the value that is drawn."""
    return float(row.side == "White") if row.drawn[1] == 0 else chance(row.drawn)


def loss_of(best: Value, played: Value) -> Loss:
    """What a move lost, from the worths of the best move and of this one: hundredths of a pawn, `2 plies` where a mate
    comes so much later or against the mover so much sooner, or `mate` where only one of them is one."""
    if best == played:
        return 0
    (cp, mate), (played_cp, played_mate) = best, played
    if cp is not None and played_cp is not None:
        return cp - played_cp
    if mate is not None and played_mate is not None and (mate > 0) == (played_mate > 0):
        return f"{abs(mate - played_mate)} plies"
    return "mate"


def weight(loss: Loss) -> float:
    """How much a loss is, for comparing."""
    return math.inf if loss == "mate" else 0.5 if isinstance(loss, str) else max(loss, 0)


def comparisons(before: Answer, after: Answer, depth: int) -> list[tuple[Value, Value]]:
    """The worths of the best and of the played move by which a loss is judged: at the last two depths, and at the last
    one with the played move seen one ply deeper."""
    here, shallower = value_at(before, depth), value_at(before, depth - 1)
    return [
        (here, worth_at(after, depth)),
        (shallower, worth_at(after, depth - 1)),
        (here, worth_at(after, depth + 1)),
    ]


def agreed_loss(before: Answer, after: Answer, depth: int) -> Loss:
    """The least of the losses by all comparisons."""
    least = min((loss_of(*pair) for pair in comparisons(before, after, depth)), key=weight)
    return least if isinstance(least, str) else max(least, 0)


def lost_chance(before: Answer, after: Answer, depth: int) -> float:
    """The least chance of winning that was lost by all comparisons."""
    return max(0.0, min(chance(best) - chance(played) for best, played in comparisons(before, after, depth)))


def mean_value(answer: Answer, depth: int) -> Value:
    """The mean of the values at the last two depths; a mate that is found is kept."""
    (cp, mate), (shallower, _) = value_at(answer, depth), value_at(answer, depth - 1)
    return (cp, mate) if cp is None or shallower is None else (round((cp + shallower) / 2), None)


def accuracy_of(lost: float) -> float:
    """How accurate a move is, from 0 to 100, by the chance of winning that it lost: lichess's formula."""
    return min(max(103.1668 * math.exp(-4.354 * lost) - 3.1669, 0.0), 100.0)


class Analysis:
    """A game with the answers for its positions, as far as they are there: one more than its moves at most. `alone` has
    the best moves that are better than all others, `threats` what was threatened before a slip, and `missed` the mates
    by checks that moves missed; all of these by the plies before. `second` is what another engine says, if one was
    asked."""

    def __init__(self, game: Game, depth: int, slip: float = SLIP, evaluation: str = "Exchange"):
        self.game, self.depth, self.slip, self.evaluation = game, depth, slip, evaluation
        self.answers: list[Answer] = []
        self.alone: dict[int, str] = {}
        self.threats: dict[int, "Threat"] = {}
        self.missed: dict[int, Mate] = {}
        self.second: Optional["Opinion"] = None
        self.losses: dict[int, float] = {}  # the chances that moves lost, by the plies before them
        self.found: tuple[int, list[int]] = (0, [])  # the slips among so many rows
        self.black_begins = game.start == "startpos" or game.start.split()[2] == "b"

    def side_at(self, plies: int) -> str:
        """Who moves after so many plies."""
        return "Black" if (plies % 2 == 0) == self.black_begins else "White"

    @functools.cached_property
    def boards(self) -> list[Board]:
        """The positions of the game, from the first to the last."""
        boards = [Board.of(self.game.start)]
        for move in self.game.moves:
            board = boards[-1].copy()
            board.play(move.text)
            boards.append(board)
        return boards

    @functools.cached_property
    def ends(self) -> list[Optional[Square]]:
        """Where the move before each position ended."""
        return [None, *(parts_of(board, move.text)[1] for board, move in zip(self.boards, self.game.moves))]

    @property
    def is_whole(self) -> bool:
        """Whether all positions are answered."""
        return len(self.answers) > len(self.game.moves)

    def row(self, plies: int) -> Row:
        """The row of the position after so many plies; the last one of a game has no move."""
        side, answer = self.side_at(plies), self.answers[plies]
        move, worth, loss = "", NO_VALUE, NO_LOSS
        if plies < len(self.game.moves):
            after = self.answers[plies + 1]
            move, loss = self.game.moves[plies].text, agreed_loss(answer, after, self.depth)
            worth = for_black(worth_at(after, self.depth), side)
        value = for_black(value_at(answer, self.depth), side)
        drawn = for_black(mean_value(answer, self.depth), side)
        return Row(plies + 1, side, move, value, answer.best, worth, loss, drawn)

    def count(self) -> int:
        """How many rows there are: a move's row needs the position after it."""
        return len(self.answers) if self.is_whole else max(len(self.answers) - 1, 0)

    def rows(self) -> list[Row]:
        """All rows that there are."""
        return [self.row(plies) for plies in range(self.count())]

    def lost(self, plies: int) -> float:
        """The chance of winning that the move after so many plies lost."""
        if plies not in self.losses:
            self.losses[plies] = lost_chance(self.answers[plies], self.answers[plies + 1], self.depth)
        return self.losses[plies]

    def mates_after(self, plies: int) -> bool:
        """Whether the mover mates after its move: that is found in the position after it, or later on, where the other
        side's moves lost nothing."""
        for later in range(plies + 1, min(plies + 1 + self.depth, len(self.answers))):
            is_other = (later - plies) % 2 == 1
            _, mate = value_at(self.answers[later], self.depth)
            if mate is not None:
                return (mate <= 0) == is_other
            if is_other and later + 1 < len(self.answers) and self.lost(later) > 0:
                return False
        return False

    def played(self) -> range:
        """After how many plies the moves were made that have a row."""
        return range(min(self.count(), len(self.game.moves)))

    def slips(self) -> list[int]:
        """After how many plies the slips were made, the worst one first. A move after which its mover mates is none of
        them."""
        if self.found[0] != self.count():
            lost = sorted((-self.lost(plies), plies) for plies in self.played())
            slips = [plies for loss, plies in lost if -loss >= self.slip and not self.mates_after(plies)]
            self.found = self.count(), slips
        return self.found[1]

    def marks(self) -> list[int]:
        """After how many plies the moves were made that are marked, the worst one first."""
        return self.slips()[:WORST]

    def is_dear(self, plies: int) -> bool:
        """Whether the move lost a pawn or more, or has to do with a mate, so that a better one is worth a word."""
        loss = self.row(plies).loss
        return isinstance(loss, str) or loss >= PAWN

    def marked(self, plies: int) -> Marked:
        """What is told of a marked move."""
        best = line_at(self.answers[plies], self.depth)
        answer = line_at(self.answers[plies + 1], self.depth)
        return Marked(self.lost(plies), best.pv if best else [], answer.pv if answer else [])

    def mate_line(self, plies: int) -> Sequence[str]:
        """The mate that a move missed: one by checks that was looked for, or that of the best line."""
        best = line_at(self.answers[plies], self.depth)
        if plies in self.missed:
            return self.missed[plies].line
        return best.pv[: best.mate] if best and best.mate and best.mate > 0 else []

    def shown(self, plies: int) -> Sequence[str]:
        """The best line of a position up to its last capture or promotion: nothing hangs on the quiet plies behind it,
        of which the lowest code decides. A mate is whole."""
        line = line_at(self.answers[plies], self.depth)
        if line is None or line.mate is not None:
            return line.pv if line else []
        board, end = self.boards[plies].copy(), 0
        for number, text in enumerate(line.pv, 1):
            _, to, _, promotes = parts_of(board, text)
            if promotes or to in board.squares:
                end = number
            board.play(text)
        return line.pv[:end]

    def moves_of(self, side: str) -> list[int]:
        """After how many plies a side moved."""
        return [plies for plies in self.played() if self.side_at(plies) == side]

    def mean_lost(self, side: str, phase: Optional[str] = None) -> Optional[float]:
        """The mean chance of winning that a side's moves lost, in the game or in one phase; None for no moves."""
        phases = self.phases
        lost = [self.lost(plies) for plies in self.moves_of(side) if phase in (None, phases[plies])]
        return sum(lost) / len(lost) if lost else None

    @functools.cached_property
    def phases(self) -> list[str]:
        """The phase of each position, by the pieces other than pawns that were captured before it."""
        taken, phases = 0, [PHASES[0]]
        for board, end in zip(self.boards, self.ends[1:]):
            taken += end is not None and board.squares.get(end, (True, "P"))[1] != "P"
            phases.append(PHASES[(taken >= MIDDLE) + (taken >= END)])
        return phases

    def accuracy(self, side: str) -> Optional[float]:
        """A side's accuracy from 0 to 100, as lichess has it: half of it the mean in which moves count by how much the
        curve varies around them, half the harmonic mean. None for no moves."""
        chances = [100 * chance_for_black(row) for row in self.rows()]
        width = min(max(len(chances) // 10, 2), 8)
        weighted = weights = inverse = 0.0
        for plies in self.moves_of(side):
            begin = max(plies + 2 - width, 0)
            weight_of = min(max(statistics.pstdev(chances[begin : begin + width]), 0.5), 12.0)
            accuracy = accuracy_of(self.lost(plies))
            weighted, weights = weighted + weight_of * accuracy, weights + weight_of
            inverse += 1 / max(accuracy, 1.0)
        return (weighted / weights + len(self.moves_of(side)) / inverse) / 2 if weights else None

    def found_alone(self, side: str) -> tuple[int, int]:
        """How often a side played the move that alone is best, and of how many times."""
        there = [plies for plies in self.moves_of(side) if plies in self.alone]
        return sum(self.alone[plies] == self.game.moves[plies].text for plies in there), len(there)


def shown(value: Value) -> str:
    """A value as text: `cp 200`, `mate -3`; nothing for none."""
    cp, mate = value
    return "" if value == NO_VALUE else f"cp {cp}" if mate is None else f"mate {mate}"
