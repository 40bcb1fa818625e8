"""What is said of a problem in words."""

from ..records.board import Board
from ..records.notation import NOTATIONS, line_of

from .problems import Found, Other, Problem
from .solver import Mate


def line_words(problem: Problem, mate: Mate, pieces: str) -> str:
    """The line of a mate in the notation of people."""
    return line_of(Board.of(f"sfen {problem.sfen}"), mate.line, pieces)


def keys_words(problem: Problem, mate: Mate, others: list[Other], pieces: str) -> list[str]:
    """Other keys, with the ply and the length of the mate by them: those of one ply and one length together."""
    board = Board.of(f"sfen {problem.sfen}")
    written: dict[tuple[int, int], list[str]] = {}
    for ply, move in enumerate(mate.line, 1):
        for other in others:
            if other.ply == ply:
                written.setdefault((ply, other.plies), []).append(NOTATIONS[pieces](board, other.move))
        board.play(move)
    return [f"{' '.join(moves)} at ply {ply}, mate {plies}" for (ply, plies), moves in written.items()]


def is_misstated(problem: Problem, found: Found, plies: int) -> bool:
    """Whether a problem is said to have another length than was found, among those that were looked for."""
    if problem.stated is None or found.error:
        return False
    return found.mate.plies != problem.stated if found.mate else problem.stated <= plies


def notes_of(problem: Problem, found: Found, plies: int, pieces: str) -> list[str]:
    """What is to be said of a problem besides its mate and its verdict."""
    notes, mate = [], found.mate
    if is_misstated(problem, found, plies):
        notes.append(f"stated is {problem.stated}")
    if mate is not None:
        for told, others in [
            ("other key", found.cooks),
            ("with or without promotion", found.promotions),
            ("other last move", found.last),
        ]:
            notes += [f"{told}: {words}" for words in keys_words(problem, mate, others, pieces)]
        notes += [f"an interposed drop at ply {ply} is counted" for ply in found.drops]
        if found.left:
            notes.append(f"left in hand: {found.left}")
    if found.error:
        notes.append(found.error)
    return notes


def mate_words(found: Found, plies: int) -> str:
    """The length of the mate."""
    if found.mate is not None:
        return f"mate {found.mate.plies}"
    return "" if found.error else f"no mate in {plies}"
