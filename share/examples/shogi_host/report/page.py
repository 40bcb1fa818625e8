"""A game's report as one HTML page that loads nothing from elsewhere."""

import html
import urllib.parse
from typing import Optional

from ..mates import missed
from ..records.board import Board
from ..records.notation import NOTATIONS, line_of

from .curve import WIDTH, Curve
from .diagram import Arrow, diagram_of
from .shapes import shape_of
from .stepper import policy, script, stepper_of
from .svg import COLORS
from .texts import LANGUAGES
from .threats import Threat, cause_of, told_line
from .values import ACCURACY_SOURCE, PAWN, PHASES, SCALE, Analysis, Value, for_black
from .words import Made, in_line, lost_words, pawns, percent_of, plies_words, result_of, seconds_words, signed, title_of

SIGNS = (("☗", "Black"), ("☖", "White"))
SECOND_LINE = 5  # so many plies of the other engine's line are shown
CAUSES = ("overlooked", "left hanging", "missed a gain", "missed a mate")
STYLE = """
* { box-sizing: border-box }
body { margin: 0 auto; padding: 1rem; max-width: 62rem; background: var(--paper); color: var(--ink);
  font: 16px/1.5 system-ui, sans-serif, "Noto Sans CJK JP", "Hiragino Sans", "Yu Gothic", "IPAGothic" }
h1 { font-size: 1.5rem; line-height: 1.25; margin: .2rem 0; overflow-wrap: anywhere }
h2 { font-size: 1.2rem; margin: 2rem 0 .5rem }
h3 { font-size: 1.05rem; margin: 0 0 .5rem }
p { margin: .4rem 0 }
a { color: var(--curve) }
.soft, figcaption, footer { color: var(--soft); font-size: .9rem; overflow-wrap: anywhere }
svg { fill: var(--ink); font-family: inherit }
svg .soft { fill: var(--soft); font-size: inherit }
figure { margin: 1rem 0 }
.curve { width: 100%; height: auto; font-size: 13px }
table { border-collapse: collapse; font-variant-numeric: tabular-nums }
th, td { padding: .2rem .8rem .2rem 0; text-align: left; border-bottom: 1px solid var(--grid) }
th { font-weight: 600 } tr.part th { font-weight: normal; padding-left: 1.2rem; color: var(--soft) }
td.number, th.number { text-align: right }
article, .step { display: grid; grid-template-columns: minmax(0, 25rem) minmax(0, 1fr); gap: 1.2rem;
  align-items: start }
article { padding: 1.2rem 0; border-top: 1px solid var(--grid); break-inside: avoid }
.board { width: 100%; height: auto; display: block }
.key { display: inline-block; width: 1.1em; height: .35em; margin-right: .4em; border-radius: 2px;
  vertical-align: middle }
.played { background: var(--played) } .best { background: var(--best) } .threat { background: var(--threat) }
.line { overflow-wrap: anywhere }
.around { margin: .6rem 0; font-size: .9rem }
.moves { columns: 2; column-gap: 2rem } .moves table { width: 100%; break-inside: auto }
.moves td { white-space: nowrap } .moves td:nth-child(3) { white-space: normal }
tr.mark td { font-weight: 600 }
.steps tr[data-ply] { cursor: pointer } .steps .curve { cursor: crosshair }
tr.now td { background: var(--grid) }
button { font: inherit; min-width: 3.2rem; min-height: 2.6rem; margin-right: .4rem; color: var(--ink);
  background: var(--grid); border: 1px solid var(--soft); border-radius: .4rem }
button:disabled { opacity: .4 }
#notes { white-space: pre-line; overflow-wrap: anywhere }
@media (max-width: 640px) {
  article, .step { grid-template-columns: minmax(0, 1fr) } .moves { columns: 1 }
  .moves th, .moves td { padding-right: .5rem }
  .curve { font-size: 22px } .curve .number { font-size: 15px }
}
@media print {
  :root { color-scheme: light }
  body { max-width: none; padding: 0; font-size: 10.5pt }
  article { grid-template-columns: 17rem minmax(0, 1fr) }
  #game, #now { display: none } tr.now td { background: none }
}
"""
# Printed pages are light, also where the screen is dark.
PRINT = "@media print {" + COLORS.split("@media", maxsplit=1)[0] + "}"


def link_of(board: Board) -> str:
    """lishogi's analysis board with the position."""
    sfen = urllib.parse.quote(board.sfen().replace(" ", "_"), safe="/_-")
    return f"https://lishogi.org/analysis/standard/{sfen}"


def paragraph(text: str, kind: str = "") -> str:
    """A paragraph of a text that is no markup."""
    attribute = f' class="{kind}"' if kind else ""
    return f"<p{attribute}>{html.escape(text)}</p>"


def head_of(analysis: Analysis, made: Made) -> list[str]:
    """The names, and what else the record says of the game."""
    head = analysis.game.head
    facts = [in_line(head.get(key, "")) for key in ("event", "site", "date", "handicap")] + [result_of(analysis, made)]
    told = " · ".join(fact for fact in facts if fact)
    out = [f"<h1>{html.escape(title_of(analysis.game, made))}</h1>"]
    if told:
        out.append(paragraph(told, "soft"))
    if not analysis.is_whole:
        done = made.say("part done", done=analysis.count(), all=len(analysis.game.moves))
        out.append(f"<p><strong>{made.say('not complete')}</strong> {done}</p>")
    return out + [paragraph(made.say("note", line=note.line, text=in_line(note.text))) for note in analysis.game.notes]


def curve_of(analysis: Analysis, made: Made) -> list[str]:
    """The curve with its caption."""
    curve, depth = Curve(analysis, made), analysis.depth
    told = made.say("curve", scale=SCALE, shallower=depth - 1, depth=depth, pawn=PAWN)
    if curve.longest:
        told += " " + made.say("times told", longest=seconds_words(curve.longest, made))
    label = html.escape(made.say("chance after plies"))
    return [
        f'<figure><svg class="curve" id="curve" viewBox="0 0 {WIDTH} {curve.height}" role="img" '
        f'aria-label="{label}">{curve.drawing(curve.cursor())}</svg>',
        f"<figcaption>{html.escape(told)}</figcaption></figure>",
    ]


def percent_or_none(chance: Optional[float]) -> str:
    """A share in percent with a place behind the point, or nothing where there is none."""
    return "" if chance is None else f"{100 * chance:.1f} %"


def facts_of(analysis: Analysis, side: str, made: Made) -> list[str]:
    """What the table says of a side, row by row."""
    language = LANGUAGES.index(made.language)
    shapes = [shape_of(analysis, side == "Black", kind) for kind in ("opening", "castle")]
    slips = [plies for plies in analysis.slips() if analysis.side_at(plies) == side]
    causes = {plies: cause_of(analysis, plies) for plies in slips}
    causes |= {plies: "missed a mate" for plies in analysis.missed if analysis.side_at(plies) == side}
    counts = list(causes.values())
    accuracy, (found, there) = analysis.accuracy(side), analysis.found_alone(side)
    return [
        *(shape.names[language] if shape else "" for shape in shapes),
        str(len(analysis.moves_of(side))),
        "" if accuracy is None else f"{accuracy:.1f} %",
        f"{found} / {there}" if there else "",
        percent_or_none(analysis.mean_lost(side)),
        *(percent_or_none(analysis.mean_lost(side, phase)) for phase in PHASES),
        str(len(slips)),
        *(str(counts.count(cause)) for cause in CAUSES),
    ]


def sides_of(analysis: Analysis, made: Made) -> list[str]:
    """What each side did: a table."""
    names = ["opening name", "castle name", "moves", "accuracy", "only move", "mean loss", *PHASES, "slips", *CAUSES]
    heads = "".join(f'<th class="number">{sign} {made.say(side)}</th>' for sign, side in SIGNS)
    out = [f"<table><tr><th></th>{heads}</tr>"]
    for name, *cells in zip(names, facts_of(analysis, "Black", made), facts_of(analysis, "White", made)):
        if any(cells):
            part = ' class="part"' if name in (*PHASES, *CAUSES) else ""
            numbers = "".join(f'<td class="number">{html.escape(cell)}</td>' for cell in cells)
            out.append(f"<tr{part}><th>{made.say(name)}</th>{numbers}</tr>")
    depth, source = analysis.depth, f'<a href="{ACCURACY_SOURCE}">lichess</a>'
    told = [
        html.escape(made.say("sides told", slip=percent_of(analysis.slip), shallower=depth - 1, depth=depth)),
        made.say("accuracy told", source=source),
        html.escape(made.say("only told")) if analysis.alone else "",
        html.escape(made.say("phases told")),
    ]
    return [*out, f'</table><p class="soft">{" ".join(text for text in told if text)}</p>']


def cause_words(analysis: Analysis, plies: int, made: Made) -> str:
    """Why a move was a slip, in a sentence; nothing where that is not known."""
    cause, threat = cause_of(analysis, plies), analysis.threats.get(plies, Threat())
    if cause == "missed a mate":
        return made.say("missed mate", plies=plies_words(len(analysis.mate_line(plies)), made))
    if cause == "missed a gain":
        return made.say("gain")
    if cause == "left hanging":
        return made.say("hanging in check" if threat.is_check else "hanging")
    if cause == "overlooked":
        move = told_line(analysis, plies, made.pieces)[0]
        if threat.mate is not None:
            return made.say("threat of mate", move=move)
        return made.say("threat", move=move, gain=signed(round(threat.gain / PAWN, 1)))
    return ""


def causes_of(analysis: Analysis, plies: int, made: Made) -> list[str]:
    """The paragraphs on why a move was a slip."""
    words, cause = cause_words(analysis, plies, made), cause_of(analysis, plies)
    if not words:
        return []
    key = '<span class="key threat"></span>' if cause == "overlooked" else ""
    out = [f"<p>{key}<strong>{html.escape(words)}</strong></p>"]
    if cause == "overlooked":
        out.append(f'<p class="line soft">{html.escape(" ".join(told_line(analysis, plies, made.pieces)))}</p>')
    if cause == "missed a mate":
        line = line_of(analysis.boards[plies], analysis.mate_line(plies), made.pieces, analysis.ends[plies])
        out.append(f'<p class="line soft">{line}</p>')
    return out


def second_of(analysis: Analysis, plies: int, made: Made) -> list[str]:
    """What the other engine says of a marked move and of those around it, beside the exact losses."""
    second, write = analysis.second, NOTATIONS[made.pieces]
    if second is None or (lost := second.lost(plies)) is None:
        return []
    engine, side = in_line(second.title), analysis.side_at(plies)
    board, other = analysis.boards[plies], "White" if side == "Black" else "Black"
    key = "second agrees" if second.agrees(plies) else "second differs"
    out = [paragraph(made.say(key, engine=engine, percent=percent_of(lost)))]
    view, after = second.views[plies], second.views[plies + 1]
    if view.line:
        value, then = second_value(for_black(view.value, side), made), second_value(for_black(after.value, other), made)
        line = line_of(board, view.line[:SECOND_LINE], made.pieces, analysis.ends[plies])
        out.append(paragraph(made.say("second sees", move=line, value=value, after=then), "line soft"))
    heads = (made.say("column ply"), made.say("column move"), made.say("exact"), engine)
    out.append(f'<table class="around"><tr>{"".join(f"<th>{html.escape(head)}</th>" for head in heads)}</tr>')
    for at in range(plies - 1, plies + 2):
        if at in analysis.played() and (lost := second.lost(at)) is not None:
            move = write(analysis.boards[at], analysis.game.moves[at].text, analysis.ends[at])
            cells = (str(at + 1), move, percent_of(analysis.lost(at)), percent_of(lost))
            mark = ' class="mark"' if at == plies else ""
            out.append(f"<tr{mark}>{''.join(f'<td>{cell}</td>' for cell in cells)}</tr>")
    return [*out, "</table>"]


def second_value(value: Value, made: Made) -> str:
    """A value of the other engine, for Black."""
    cp, _ = value
    return pawns(value, made) if cp is None else signed(round(cp / 100, 1))


def mark_of(analysis: Analysis, number: int, plies: int, made: Made) -> str:
    """A marked move: the board before it, both moves, and the lines."""
    row, board, last = analysis.row(plies), analysis.boards[plies], analysis.ends[plies]
    write, is_dear = NOTATIONS[made.pieces], analysis.is_dear(plies)
    played = write(board, row.move, last)
    arrows = [Arrow(row.move, "--played")]
    if is_dear:
        arrows.insert(0, Arrow(row.best, "--best"))
    if cause_of(analysis, plies) == "overlooked":
        arrows.append(Arrow(analysis.threats[plies].line[0], "--threat", is_other=True))
    label = html.escape(made.say("board label", ply=row.ply, move=row.move))
    head = made.say("mark", number=number, ply=row.ply, move=played, lost=lost_words(analysis, plies, made))
    if analysis.second and analysis.second.agrees(plies):
        head += " ✓"
    out = [
        f'<article id="mark{number}">{diagram_of(board, made.pieces, arrows, label, last)}<div>',
        f"<h3>{html.escape(head)}</h3>",
        *causes_of(analysis, plies, made),
        f'<p><span class="key played"></span>{made.say("played", move=played, value=pawns(row.worth, made))}</p>',
        f'<p class="line soft">{line_of(board, [row.move, *analysis.shown(plies + 1)], made.pieces, last)}</p>',
    ]
    if is_dear:
        best_line = analysis.shown(plies) or [row.best]
        best = made.say("best was", move=write(board, row.best, last), value=pawns(row.value, made))
        out.append(f'<p><span class="key best"></span>{best}</p>')
        out.append(f'<p class="line soft">{line_of(board, best_line, made.pieces, last)}</p>')
    out += second_of(analysis, plies, made)
    link = f'<p><a href="{link_of(board)}">{made.say("lishogi")}</a></p>'
    return "\n".join([*out, link, "</div></article>"])


def marks_of(analysis: Analysis, made: Made) -> list[str]:
    """The marked moves, or that there is none."""
    marks = [mark_of(analysis, number, plies, made) for number, plies in enumerate(analysis.marks(), 1)]
    head = [f"<h2>{made.say('marks')}</h2>"]
    if not marks:
        return [*head, paragraph(made.say("no marks", slip=percent_of(analysis.slip)))]
    told = made.say("marks told")
    if second := analysis.second:
        both = sum(map(second.agrees, analysis.marks()))
        told += " " + made.say("second told", engine=in_line(second.title), go=in_line(second.go))
        told += " " + made.say("second both", both=both, all=len(marks))
    return [*head, paragraph(told, "soft"), *marks]


def moves_of(analysis: Analysis, made: Made) -> list[str]:
    """All moves with their values."""
    boards, lasts, marks, write = analysis.boards, analysis.ends, analysis.marks(), NOTATIONS[made.pieces]
    names = ["ply", "move", "value", "best"]
    heads = "".join(f"<th>{made.say(f'column {name}')}</th>" for name in names)
    out = [f"<h2>{made.say('all moves')}</h2>", paragraph(made.say("moves told"), "soft")]
    heads += f'<th class="number">{made.say("column lost")}</th>'
    out.append(f'<div class="moves"><table><thead><tr>{heads}</tr></thead>')
    for plies in analysis.played():
        row = analysis.row(plies)
        best = write(boards[plies], row.best, lasts[plies]) if analysis.is_dear(plies) and row.best != row.move else ""
        lost = percent_of(analysis.lost(plies)) if analysis.lost(plies) >= 0.005 else ""
        cells = [str(row.ply), write(boards[plies], row.move, lasts[plies]), pawns(row.worth, made), best]
        mark = ' class="mark"' if plies in marks else ""
        texts = "".join(f"<td>{html.escape(cell)}</td>" for cell in cells)
        out.append(f'<tr{mark} data-ply="{plies + 1}">{texts}<td class="number">{lost}</td></tr>')
    return [*out, "</table></div>"]


def page_of(analysis: Analysis, made: Made) -> str:
    """The whole page."""
    words = {"name": in_line(made.name), "program": in_line(made.program), "evaluation": in_line(made.evaluation)}
    return "\n".join(
        [
            f'<!doctype html>\n<html lang="{made.language}"><head><meta charset="utf-8">',
            f'<meta http-equiv="Content-Security-Policy" content="{policy()}">',
            '<meta name="viewport" content="width=device-width, initial-scale=1">',
            '<meta name="color-scheme" content="light dark">',
            f"<title>{html.escape(title_of(analysis.game, made))}</title>",
            f"<style>{COLORS}{STYLE}{PRINT}</style></head><body>",
            *head_of(analysis, made),
            *curve_of(analysis, made),
            *stepper_of(analysis, made),
            *sides_of(analysis, made),
            *marks_of(analysis, made),
            *missed.section_of(analysis, made),
            *moves_of(analysis, made),
            f"<footer>{paragraph(made.say('made', depth=analysis.depth, **words))}</footer>",
            f"<script>{script()}</script></body></html>\n",
        ]
    )
