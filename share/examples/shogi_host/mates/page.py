"""Problems as one HTML page that loads nothing from elsewhere: the boards, and the solutions behind them."""

import html

from ..report.diagram import diagram_of
from ..report.page import PRINT
from ..report.page import STYLE as REPORT_STYLE
from ..report.svg import COLORS
from ..records.board import Board

from .problems import Found, Problem
from .words import line_words, mate_words, notes_of

STYLE = """
.problems { display: grid; grid-template-columns: repeat(auto-fill, minmax(17rem, 1fr)); gap: 1.5rem }
.problems figure { margin: 0; break-inside: avoid }
.problems figcaption { color: var(--ink); font-size: 1rem; margin-bottom: .3rem }
.cooked { color: var(--red) }
ul { margin: 0; padding-left: 1.1rem }
td { vertical-align: top }
@media print { .problems { grid-template-columns: 1fr 1fr } h2 { break-after: avoid } tr { break-inside: avoid } }
"""
NOTE = "Each move of the mating side is a check. Lengths are in plies, and interpositions count."
NOT_COUNTED = "Other keys at the last move, and keys that differ by promotion alone, are listed and do not count."
Row = tuple[int, Problem, Found]


def name_of(number: int, problem: Problem) -> str:
    """A problem's number, and its title where it has one."""
    return f"{number}. {problem.title}" if problem.title else f"{number}."


def board_of(row: Row, plies: int, pieces: str) -> str:
    """A problem's board with the task above it."""
    number, problem, found = row
    board = Board.of(f"sfen {problem.sfen}")
    side = "☗ Black" if board.black else "☖ White"
    task = f"{side} mates in {found.mate.plies}" if found.mate else mate_words(found, plies) or f"{side} to move"
    words = html.escape(f"{name_of(number, problem)} {task}")
    picture = diagram_of(board, pieces, [], html.escape(f"the position {board.sfen()}, {task}"))
    return f'<figure id="problem{number}"><figcaption>{words}</figcaption>{picture}</figure>'


def solution_of(row: Row, plies: int, pieces: str) -> str:
    """The row of a problem in the table of solutions."""
    number, problem, found = row
    line = line_words(problem, found.mate, pieces) if found.mate else ""
    notes = "".join(f"<li>{html.escape(note)}</li>" for note in notes_of(problem, found, plies, pieces))
    mark = ' class="cooked"' if found.cooks else ""
    name = number if found.is_refused else f'<a href="#problem{number}">{number}</a>'
    cells = [
        f"<td>{name}</td>",
        f"<td>{html.escape(mate_words(found, plies))}</td>",
        f"<td{mark}>{found.verdict}</td>",
        f'<td class="line">{html.escape(line)}{f"<ul>{notes}</ul>" if notes else ""}</td>',
    ]
    return f"<tr>{''.join(cells)}</tr>"


def page_of(rows: list[Row], plies: int, title: str, pieces: str, is_whole: bool) -> str:
    """The whole page."""
    shown = [row for row in rows if not row[2].is_refused]
    told = [] if is_whole else [f"<p><strong>Not complete:</strong> the first {len(rows)} problems.</p>"]
    return "\n".join(
        [
            '<!doctype html>\n<html lang="en"><head><meta charset="utf-8">',
            '<meta name="viewport" content="width=device-width, initial-scale=1">',
            f'<meta name="color-scheme" content="light dark"><title>{html.escape(title)}</title>',
            f"<style>{COLORS}{REPORT_STYLE}{STYLE}{PRINT}</style></head><body>",
            f"<h1>{html.escape(title)}</h1>",
            *told,
            f'<p class="soft">{NOTE}</p>',
            '<div class="problems">',
            *(board_of(row, plies, pieces) for row in shown),
            "</div>",
            "<h2>Solutions</h2>",
            "<table><thead><tr><th></th><th>length</th><th></th><th>line</th></tr></thead><tbody>",
            *(solution_of(row, plies, pieces) for row in rows),
            "</tbody></table>",
            f'<p class="soft">Sound: no other check on the line mates within {plies} plies in all. {NOT_COUNTED}</p>',
            "<footer><p>Made by tsume.py.</p></footer>",
            "</body></html>\n",
        ]
    )
