"""What another USI engine says of the marked moves and of those around them."""

import re
import shlex
from typing import Callable, NamedTuple, Optional

from ..engine import Engine
from ..errors import Gone
from ..records.board import Board

from .values import Analysis, Value, chance

GO = "depth 11"
PATIENCE = 120.0  # the seconds that an answer may take where no time is set
AGREED = 0.1  # a move that loses so much of the chance of winning is a slip for the other engine too
SCORE = re.compile(r"\bscore (cp|mate) ([+-]?)(\d{1,9})\b(?! (?:lower|upper)bound)")
MATED = re.compile(r"bestmove (?:resign|\(none\)|none|null|0000)\b")


class Unusable(Exception):
    """Why there is no second opinion."""


class View(NamedTuple):
    """What the engine says of a position: its value for the side to move, and its line, as far as that is legal."""

    value: Value
    line: list[str]


def legal_part(board: Board, words: list[str]) -> list[str]:
    """The moves of a line up to the first word that is no legal move."""
    board, moves = board.copy(), []
    for word in words:
        if not board.is_legal(word):
            break
        moves.append(word)
        board.play(word)
    return moves


def view_of(board: Board, replies: list[str]) -> Optional[View]:
    """What the replies to a `go` say; None where they say nothing that can be understood."""
    if MATED.match(replies[-1]):
        return View((None, 0), [])
    scored = [reply for reply in replies if reply.startswith("info ") and SCORE.search(reply)]
    scored = [reply for reply in scored if re.search(r"\bmultipv (?!1\b)", reply) is None]
    if not scored:
        return None
    [(kind, sign, digits)] = SCORE.findall(scored[-1])[:1]
    number = int(digits) * (-1 if sign == "-" else 1)
    line = scored[-1].partition(" pv ")[2].split()
    return View((number, None) if kind == "cp" else (None, number), legal_part(board, line))


class Opinion:
    """Another engine's views of positions, by the plies before them."""

    def __init__(self, command: str, go: str, timeout: Optional[float]):
        self.go = go
        self.views: dict[int, View] = {}
        try:
            words = shlex.split(command)
            self.client = Engine.popen(words or [command], timeout=timeout or PATIENCE, lines=None)
        except (Gone, OSError, ValueError) as why:
            raise Unusable(str(why)) from why
        self.title = self.client.title

    def close(self) -> None:
        """Ends the engine."""
        self.client.close()

    def ask(self, board: Board, text: str, plies: int) -> None:
        """Asks for a position."""
        try:
            self.client.send(f"position {text}")
            self.client.send(f"go {self.go}")
            view = view_of(board, self.client.read_until("bestmove"))
        except (Gone, OSError, ValueError) as why:
            raise Unusable(str(why)) from why
        if view is None:
            raise Unusable(f"{self.client.name}: no score in its answer to go {self.go}")
        self.views[plies] = view

    def look(self, analysis: Analysis, text_of: Callable[[int], str]) -> None:
        """Asks for the positions around the marked moves, `text_of` giving their texts; then it is the analysis's."""
        for plies in sorted({at for mark in analysis.marks() for at in range(mark - 1, mark + 3)}):
            if 0 <= plies <= len(analysis.game.moves):
                self.ask(analysis.boards[plies], text_of(plies), plies)
        analysis.second = self

    def lost(self, plies: int) -> Optional[float]:
        """The chance of winning that a move lost by the engine; None where it was not asked."""
        if plies not in self.views or plies + 1 not in self.views:
            return None
        return max(0.0, chance(self.views[plies].value) - (1 - chance(self.views[plies + 1].value)))

    def agrees(self, plies: int) -> bool:
        """Whether a move is a slip for the engine too."""
        return (self.lost(plies) or 0.0) >= AGREED
