"""Problems as files have them, and what is found of each: its mate, and other keys."""

import re
from dataclasses import dataclass, field
from typing import Iterator, NamedTuple, Optional, Sequence

from ..errors import Refused, TooSlow
from ..records import Game, Unreadable, read_games, usi
from ..records.board import EVEN, Board
from ..records.encoding import text_of_bytes

from .solver import Mate, Solver, legal_moves, moved

# A line above problems that are one a line, which states how long they are: `# 5 plies`.
STATED = re.compile(r"#\s*(\d+) pl(?:y|ies)")
LENGTH = re.compile(r"(\d+)手?.*")


class Problem(NamedTuple):
    """A problem: where it stands, its title where it has one, its SFEN, and how long it is said to be."""

    place: str
    title: str
    sfen: str
    stated: Optional[int]
    error: str = ""


class Other(NamedTuple):
    """A key besides the one on the line: at which ply, the move, and how many plies the mate by it takes."""

    ply: int
    move: str
    plies: int


@dataclass
class Found:
    """What is found of a problem: its mate; other keys before the last move; those of them that differ from the one on
    the line by promotion alone; other keys at the last move; what the attacker has left in hand; at which plies the
    line has a drop by the other side; why the problem, or a part of it, was not answered; and whether it is no position
    that could be shown."""

    mate: Optional[Mate] = None
    cooks: list[Other] = field(default_factory=list)
    promotions: list[Other] = field(default_factory=list)
    last: list[Other] = field(default_factory=list)
    left: str = ""
    drops: list[int] = field(default_factory=list)
    error: str = ""
    is_refused: bool = False

    @property
    def verdict(self) -> str:
        """In a word: `sound`, `cooked`, `no mate`, or nothing where it is not known."""
        if self.cooks:
            return "cooked"
        if self.error:
            return ""
        return "sound" if self.mate else "no mate"


def stated_by(game: Game) -> Optional[int]:
    """How long a record says that its problem is: by its head, or else by its moves."""
    match = LENGTH.fullmatch(game.head.get("length", ""))
    return int(match[1]) if match else len(game.moves) or None


def problem_of(game: Game, place: str, stated: Optional[int] = None) -> Problem:
    """The problem of a record."""
    sfen = f"{EVEN} b - 1" if game.start == "startpos" else game.start.removeprefix("sfen ")
    return Problem(place, game.head.get("title", "") or game.head.get("event", ""), sfen, stated_by(game) or stated)


def listed(lines: list[str], place: str) -> Iterator[Problem]:
    """Problems that stand one a line. A line that cannot be read is one with an error."""
    stated = None
    for number, line in enumerate(lines, 1):
        text = line.strip()
        if comment := STATED.fullmatch(text):
            stated = int(comment[1])
        if text and not text.startswith("#"):
            try:
                yield problem_of(usi.game_of(usi.words_of(line, number)), f"{place}:{number}", stated)
            except Unreadable as why:
                yield Problem(f"{place}:{number}", "", "", None, str(why).split(": ", 1)[1])


def read_problems(data: bytes, place: str) -> list[Problem]:
    """The problems of a file: one a line where the first is in USI's words, or else those of records. Raises
    `Unreadable`."""
    lines = re.split(r"\r\n|\n|\r", text_of_bytes(data))
    first = next((text for text in map(str.strip, lines) if text and not text.startswith("#")), "")
    if first and usi.begins(first):
        return list(listed(lines, place))
    games = read_games(data)
    return [problem_of(game, f"{place}:{game.line}" if len(games) > 1 else place) for game in games]


class Examiner:
    """Looks for mates and for other keys, up to so many plies."""

    def __init__(self, program: str, plies: int, timeout: Optional[float] = None):
        self.program, self.plies, self.timeout = program, plies, timeout
        self.solvers: dict[int, Solver] = {}

    def ask(self, position: str, plies: int) -> Optional[Mate]:
        """The mate in at most so many plies."""
        if plies not in self.solvers:
            self.solvers[plies] = Solver(self.program, plies, self.timeout)
        return self.solvers[plies].ask(position)

    def close(self) -> None:
        """Ends the programs."""
        for solver in self.solvers.values():
            solver.close()

    def plies_by(self, position: str, move: str, plies: int) -> Optional[int]:
        """How many plies the mate takes that begins with this check, where that is no more than so many."""
        after, longest = moved(position, move), 1
        for reply in legal_moves(self.program, after):
            mate = self.ask(moved(after, reply), plies - 2) if plies > 2 else None
            if mate is None:
                return None
            longest = max(longest, 2 + mate.plies)
        return longest

    def longer_keys(self, board: Board, position: str, ply: int, keys: Sequence[str]) -> Iterator[Other]:
        """The keys of a position by which the mate takes longer than by those that are known."""
        for move in legal_moves(self.program, position):
            after = board.copy()
            after.play(move)
            if move not in keys and after.is_checked(after.black):
                plies = self.plies_by(position, move, self.plies - ply + 1)
                if plies is not None:
                    yield Other(ply, move, plies)

    def look_along(self, problem: Problem, mate: Mate, found: Found) -> None:
        """Looks at each position on the line of a mate."""
        board = Board.of(f"sfen {problem.sfen}")
        attacker = board.black
        for at, move in enumerate(mate.line):
            ply, position = at + 1, moved(problem.sfen, *mate.line[:at])
            if board.black != attacker:
                if "*" in move:
                    found.drops.append(ply)
            else:
                keys = mate.keys[at // 2]
                others = [Other(ply, key, mate.plies - at) for key in keys if key != move]
                is_last = ply == mate.plies
                if not is_last and self.plies > mate.plies:
                    others += self.longer_keys(board, position, ply, keys)
                for other in others:
                    is_same = other.move.removesuffix("+") == move.removesuffix("+")
                    into = found.last if is_last else found.promotions if is_same else found.cooks
                    into.append(other)
            board.play(move)
        found.left = "".join(role * count for role, count in board.hand(attacker))

    def examine(self, problem: Problem) -> Found:
        """What is found of a problem."""
        found = Found(error=problem.error, is_refused=bool(problem.error))
        if problem.error:
            return found
        try:
            found.mate = self.ask(problem.sfen, self.plies)
            if found.mate is not None:
                self.look_along(problem, found.mate, found)
        except (Refused, TooSlow) as why:
            found.error, found.is_refused = str(why), isinstance(why, Refused)
        return found
