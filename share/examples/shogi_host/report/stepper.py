"""The part of a page in which the game is stepped through: one board, buttons, and the script step.js. Without scripts
it stays hidden. What it shows of the record is data, and becomes text."""

import base64
import functools
import hashlib
import html
import json
import os
from typing import Any

from ..records.notation import NOTATIONS

from .curve import LEFT as CURVE_LEFT
from .curve import WIDTH as CURVE_WIDTH
from .curve import Curve
from .diagram import CELL, LEFT, SIDE, SIGNS, STAND, UP, grid_of, piece_at
from .values import Analysis, chance_for_black
from .words import Made, in_line, lost_words, pawns, percent_of, seconds_words

# What ends a script or begins markup, and what JSON has and scripts did not always take.
UNSAFE = {ord(letter): f"\\u{ord(letter):04x}" for letter in "<>&\u2028\u2029"}


@functools.cache
def script() -> str:
    """The script, which is the same on all pages."""
    with open(os.path.join(os.path.dirname(__file__), "step.js"), encoding="ascii") as file:
        return file.read()


def policy() -> str:
    """What the page may load and run: nothing but this script."""
    digest = base64.b64encode(hashlib.sha256(script().encode()).digest()).decode()
    return f"default-src 'none'; style-src 'unsafe-inline'; script-src 'sha256-{digest}'; base-uri 'none'"


def ply_of(analysis: Analysis, plies: int, made: Made) -> dict[str, Any]:
    """What is shown of the position after so many plies."""
    boards, lasts, write = analysis.boards, analysis.ends, NOTATIONS[made.pieces]
    comments = [comment[1:] for comment in analysis.game.comments.get(plies, []) if comment.startswith("*")]
    shown = {"sfen": boards[plies].sfen(), "last": lasts[plies], "notes": "\n".join(map(in_line, comments))}
    said, better, head = [], "", made.say("start")
    if plies:
        row, move = analysis.row(plies - 1), analysis.game.moves[plies - 1]
        head = f"{plies}. {write(boards[plies - 1], row.move, lasts[plies - 1])}"
        said = [pawns(row.worth, made)]
        if round(100 * analysis.lost(plies - 1)):
            said.append(lost_words(analysis, plies - 1, made))
        if analysis.is_dear(plies - 1) and row.best != row.move:
            better = made.say("best", move=write(boards[plies - 1], row.best, lasts[plies - 1]))
        if move.seconds is not None:
            said.append(seconds_words(move.seconds, made))
    if plies < analysis.count():
        said.insert(min(len(said), 1), f"{made.say('Black')} {percent_of(chance_for_black(analysis.row(plies)))}")
    return shown | {"head": head, "said": " · ".join(said), "better": better}


def data_of(analysis: Analysis, made: Made) -> str:
    """The positions and what is said of them."""
    curve = Curve(analysis, made)
    place = {"left": LEFT, "up": UP, "cell": CELL, "stand": STAND, "right": LEFT + SIDE + 22 + STAND / 2}
    place |= {"wide": CURVE_WIDTH, "begin": CURVE_LEFT}
    plies = [ply_of(analysis, plies, made) for plies in range(len(analysis.played()) + 1)]
    data = {"place": place, "step": curve.across(1) - curve.across(0), "plies": plies}
    return json.dumps(data, ensure_ascii=False, separators=(",", ":")).translate(UNSAFE)


def board_of(made: Made) -> str:
    """The board without pieces, and the pieces that the script puts there."""
    pieces = "".join(
        f'<g id="{name}-{role}">{piece_at(0, 0, name == "black", role, made.pieces)}</g>'
        for name in ("black", "white")
        for role in SIGNS
    )
    return grid_of(made.pieces, html.escape(made.say("step"))) + f'<defs>{pieces}</defs><g id="pieces"></g></svg>'


def stepper_of(analysis: Analysis, made: Made) -> list[str]:
    """The part with its data."""
    signs = {"first": "|◀", "back": "◀", "on": "▶", "last": "▶|"}
    buttons = "".join(
        f'<button type="button" id="{name}" aria-label="{html.escape(made.say(name))}">{sign}</button>'
        for name, sign in signs.items()
    )
    return [
        f'<section id="game" hidden><h2>{made.say("step")}</h2><div class="step">{board_of(made)}<div>'
        f'<p class="buttons">{buttons}</p><h3 id="at" aria-live="polite"></h3><p id="said"></p>'
        f'<p id="better"></p><p id="notes"></p><p class="soft">{made.say("step told")}</p></div></div></section>',
        f'<script type="application/json" id="plies">{data_of(analysis, made)}</script>',
    ]
