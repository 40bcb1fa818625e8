"""Mates by checks that moves of a game missed."""

import html
from typing import Any, Callable, Optional

from ..commands import show_progress
from ..errors import Gone, Refused, TooSlow
from ..report.values import Analysis, worth_at
from ..report.words import Made, plies_words
from ..records.notation import NOTATIONS, line_of

from .solver import Mate, Solver, legal_moves, moved

PLIES = 9  # mates up to here are looked for


def is_kept(solver: Solver, position: str, move: str) -> bool:
    """Whether a move still mates by checks: after each reply there is a mate."""
    after = moved(position, move)
    return all(solver.ask(moved(after, reply)) for reply in legal_moves(solver.program, after))


class Finder:
    """Looks for the mates that moves missed. If the program has no command for mates, it tells that once, and finds
    none."""

    def __init__(self, program: str, timeout: Optional[float], tell: Callable[[str], None]):
        self.solver: Optional[Solver] = Solver(program, PLIES, timeout)
        self.tell, self.looked = tell, 0

    def missed_by(self, solver: Solver, analysis: Analysis, plies: int) -> Optional[Mate]:
        """The mate that the move after so many plies missed: there was one by checks, and after the move its mover
        mates neither by checks nor by what the search sees."""
        board, move = analysis.boards[plies], analysis.game.moves[plies].text
        position = board.sfen()
        mate = solver.ask(position)
        if mate is None or move == mate.line[0]:
            return None
        worth = worth_at(analysis.answers[plies + 1], analysis.depth)[1]
        if worth is not None and worth > 0:
            return None
        after = analysis.boards[plies + 1]
        if after.is_checked(after.black) and is_kept(solver, position, move):
            return None
        return mate

    def look(self, analysis: Analysis) -> None:
        """Looks at the moves of the rows that are new."""
        while self.solver is not None and self.looked < min(analysis.count(), len(analysis.game.moves)):
            try:
                if mate := self.missed_by(self.solver, analysis, self.looked):
                    analysis.missed[self.looked] = mate
            except (Refused, TooSlow) as why:
                self.say(f"ply {self.looked + 1}: no look for a mate: {why}")
            except (Gone, OSError) as why:
                self.say(f"missed mates are left out: {why}")
                self.solver = None
            self.looked += 1

    def say(self, text: str) -> None:
        """Tells something, in place of the progress."""
        show_progress("", "\r")
        self.tell(text)

    def close(self) -> None:
        """Ends the program."""
        if self.solver is not None:
            self.solver.close()


def cell_of(analysis: Analysis, plies: int) -> str:
    """A missed mate as the table has it."""
    mate = analysis.missed.get(plies)
    return f"mate {mate.plies} {' '.join(mate.line)}" if mate else ""


def entry_of(analysis: Analysis, plies: int) -> dict[str, Any]:
    """A missed mate as the data has it."""
    mate = analysis.missed.get(plies)
    return {"missed": {"plies": mate.plies, "line": mate.line}} if mate else {}


def words_of(analysis: Analysis, plies: int, made: Made) -> str:
    """A missed mate in words, with its line; nothing where none was missed."""
    mate = analysis.missed.get(plies)
    if mate is None:
        return ""
    line = line_of(analysis.boards[plies], mate.line, made.pieces, analysis.ends[plies])
    return made.say("missed mate line", plies=plies_words(mate.plies, made), line=line)


def section_of(analysis: Analysis, made: Made) -> list[str]:
    """The part of a page that lists them."""
    out = []
    for plies in sorted(analysis.missed):
        move = analysis.game.moves[plies].text
        played = NOTATIONS[made.pieces](analysis.boards[plies], move, analysis.ends[plies])
        told = made.say("missed at", ply=plies + 1, move=played, words=words_of(analysis, plies, made))
        words = html.escape(told)
        out.append(f'<li class="line">{words}</li>')
    if not out:
        return []
    note = html.escape(made.say("missed told", plies=plies_words(PLIES, made)))
    return [f"<h2>{made.say('missed mates')}</h2>", f'<p class="soft">{note}</p>', "<ul>", *out, "</ul>"]
