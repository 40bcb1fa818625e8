"""All of a report as data."""

import json
from typing import Any

from ..mates import missed

from .shapes import UP_TO, shape_of
from .threats import cause_of
from .values import PHASES, SCALE, WORST, Analysis, Value, chance_for_black
from .words import Made, in_line, result_of, title_of


def value_of(value: Value) -> dict[str, Any]:
    """A value as `{"cp": 200}` or `{"mate": -3}`."""
    cp, mate = value
    return {"cp": cp} if mate is None else {"mate": mate}


def ply_of(analysis: Analysis, plies: int, sfen: str) -> dict[str, Any]:
    """A row and what is told of its move."""
    row = analysis.row(plies)
    data: dict[str, Any] = {
        "ply": row.ply,
        "side": row.side,
        "sfen": sfen,
        "value": value_of(row.value),
        "drawn": value_of(row.drawn),
        "chance": round(chance_for_black(row), 4),
        "best": row.best,
    }
    if row.move:
        marked = analysis.marked(plies)
        data |= {
            "best_line": marked.best_line,
            "move": row.move,
            "worth": value_of(row.worth),
            "answer": marked.answer,
            "loss": row.loss,
            "lost": round(marked.lost, 4),
            "alone": analysis.alone.get(plies) == row.best,
            **missed.entry_of(analysis, plies),
        }
        if analysis.game.moves[plies].seconds is not None:
            data["seconds"] = analysis.game.moves[plies].seconds
        if cause := plies in analysis.slips() and cause_of(analysis, plies):
            data["cause"] = cause
        data |= threat_data(analysis, plies) | second_data(analysis, plies)
    return data


def threat_data(analysis: Analysis, plies: int) -> dict[str, Any]:
    """What was threatened before a move, where that was looked at."""
    data: dict[str, Any] = {}
    threat = analysis.threats.get(plies)
    if threat:
        data["in_check"] = threat.is_check
        if threat.is_one:
            worth = {"cp": threat.gain} if threat.mate is None else {"mate": threat.mate}
            data["threat"] = {"line": threat.line, "gain": worth, "remains": threat.remains}
    return data


def second_data(analysis: Analysis, plies: int) -> dict[str, Any]:
    """What the other engine says of a position and its move, where it was asked."""
    second = analysis.second
    if second is None or plies not in second.views:
        return {}
    value, line = second.views[plies]
    data: dict[str, Any] = {"value": value_of(value), "line": line}
    lost = second.lost(plies)
    if lost is not None:
        data["lost"] = round(lost, 4)
    return {"second": data}


def side_of(analysis: Analysis, side: str) -> dict[str, Any]:
    """What is told of a side."""
    mean, accuracy, (found, there) = analysis.mean_lost(side), analysis.accuracy(side), analysis.found_alone(side)
    return {
        "moves": len(analysis.moves_of(side)),
        "slips": sum(analysis.side_at(plies) == side for plies in analysis.slips()),
        "mean_lost": round(mean or 0.0, 4),
        "accuracy": None if accuracy is None else round(accuracy, 2),
        "best_alone": {"found": found, "of": there},
        "mean_lost_by_phase": {phase: analysis.mean_lost(side, phase) for phase in PHASES},
        **{kind: shape.names[0] for kind in UP_TO if (shape := shape_of(analysis, side == "Black", kind))},
    }


def data_of(analysis: Analysis, made: Made) -> str:
    """The report as JSON."""
    game, boards = analysis.game, analysis.boards
    data = {
        "form": 2,
        "complete": analysis.is_whole,
        "title": title_of(game, made),
        "record": in_line(made.name),
        "program": made.program,
        "evaluation": made.evaluation,
        "depth": analysis.depth,
        "scale": SCALE,
        "slip": analysis.slip,
        "most_marks": WORST,
        "second": None if analysis.second is None else {"program": analysis.second.title, "go": analysis.second.go},
        "head": game.head,
        "end": game.end,
        "result": result_of(analysis, made._replace(language="en")),
        "notes": [note._asdict() for note in game.notes],
        "start": game.start,
        "sides": {side: side_of(analysis, side) for side in ("Black", "White")},
        "marks": [plies + 1 for plies in analysis.marks()],
        "plies": [ply_of(analysis, plies, boards[plies].sfen()) for plies in range(analysis.count())],
    }
    return json.dumps(data, ensure_ascii=False, indent=1) + "\n"
