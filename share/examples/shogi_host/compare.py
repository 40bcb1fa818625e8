"""Compares another USI engine with exact minimax: the engine's move at each position, beside what that
move and the best one are worth here.

    shogi-compare --engine "COMMAND .." [--go "depth 5"] [--program PATH | --socket PATH] [--depth N] [--eval NAME]
               [--timeout SECONDS] [--patience SECONDS] [FILE]

FILE has SFENs or `position` lines, one a line. The worth of a move at depth N is the negated value of the position
after it, one ply less deep; so N is at least 2. The output is CSV; at the end a summary goes to standard error: how
many moves agree, the mean loss, and the ten greatest differences with their positions. The status is 2 where one of
the two programs is gone, answers without a move, or does not answer in time, which is named."""

import argparse
import contextlib
import csv
import shlex
import sys
from typing import Any, Optional, Sequence

from .commands import add_arguments, client_of, tell, told_evaluation, write_utf8
from .engine import Engine, text_of
from .errors import Gone, NotStarted, Refused
from .report.values import loss_of, shown, value_at, weight, worth_at
from .grade import positions_of
from .records import Unreadable

COLUMNS = ["sfen", "best", "best_worth", "engine", "engine_worth", "loss", "error"]
Cells = dict[str, Any]
GREATEST = 10  # so many differences are in the summary


class Other(Engine):
    """The other engine. It is sent its `go` as it is, and named where it goes away."""

    passed_over = frozenset()

    def __init__(self, command: Sequence[str], timeout: Optional[float]):
        super().__init__(command=command, timeout=timeout, lines=None)

    def begin(self) -> None:
        assert self.command is not None
        self.name = f"the other engine, {self.command[0]}"
        try:
            super().begin()
        except NotStarted as why:
            raise Gone(f"the other engine, {why}") from why

    def move_at(self, text: str, go: str) -> str:
        """Its move at a position."""
        self.send(f"position {text}")
        self.send(f"go {go}")
        return self.answer_of(self.read_until("bestmove")[-1], []).best


def with_move(text: str, move: str) -> str:
    """The position after a move, as text."""
    return f"{text} {move}" if " moves " in f" {text} " else f"{text} moves {move}"


def row_of(here: Engine, other: Other, sfen: str, go: str, depth: int) -> Cells:
    """The row of a position."""
    row: Cells = {"sfen": sfen}
    text = text_of(sfen)
    try:
        best = here.analyse(text, depth)
    except Refused as why:
        return row | {"error": str(why).split(":", 1)[0]}
    move = other.move_at(text, go)
    row |= {"best": best.best, "engine": move}
    if best.best == "resign" or move in ("resign", "win"):
        return row
    try:
        worth = worth_at(here.analyse(with_move(text, move), depth - 1), depth)
    except Refused as why:
        return row | {"error": f"the engine's move: {str(why).split(':', 1)[0]}"}
    value = value_at(best, depth)
    return row | {"best_worth": shown(value), "engine_worth": shown(worth), "loss": loss_of(value, worth)}


def summary_of(rows: Sequence[Cells]) -> str:
    """How well the engine's moves agree, in words."""
    judged = [row for row in rows if "loss" in row]
    agreed = sum(weight(row["loss"]) == 0 for row in judged)
    points = [row["loss"] for row in judged if isinstance(row["loss"], int)]
    out = [f"{agreed} of {len(judged)} moves are worth as much as the best one"]
    if points:
        mates = len(judged) - len(points)
        about = f", without {mates} that are about mates" if mates else ""
        out.append(f"mean loss {sum(points) / len(points):.0f}{about}")
    differing = sorted((row for row in judged if weight(row["loss"]) > 0), key=lambda row: -weight(row["loss"]))
    if differing:
        out.append("the greatest differences:")
    out += [f"  {row['loss']}: {row['engine']}, best {row['best']}, {row['sfen']}" for row in differing[:GREATEST]]
    return "\n".join(out)


def command_of(text: str) -> list[str]:
    """The words of the other engine's command line."""
    try:
        words = shlex.split(text)
    except ValueError as why:
        raise argparse.ArgumentTypeError(f"{str(why)[:1].lower()}{str(why)[1:]}: {text}") from why
    if not words or not words[0]:
        raise argparse.ArgumentTypeError("a command has at least the name of a program")
    return words


def run() -> int:
    """Compares what the command line says; the status."""
    parser = argparse.ArgumentParser(description="Another USI engine's moves, and what they are worth.")
    add_arguments(parser)
    parser.add_argument("--engine", type=command_of, required=True, help="the command of the other engine")
    parser.add_argument("--go", default="depth 5", help="what follows its go (depth 5)")
    parser.add_argument("file", nargs="?", help="SFENs or position lines, one a line (standard input)")
    arguments = parser.parse_args()
    if arguments.depth < 2:
        parser.error("the depth is at least 2")
    write_utf8()
    try:
        sfens = positions_of(arguments.file)
    except Unreadable as why:
        tell(f"{arguments.file or '<stdin>'}:{why}")
        return 1
    rows: list[Cells] = []
    with contextlib.ExitStack() as stack:
        here = stack.enter_context(client_of(arguments))
        other = stack.enter_context(Other(arguments.engine, arguments.timeout))
        if told := told_evaluation(here, arguments):
            tell(told)
        out = csv.DictWriter(sys.stdout, COLUMNS, lineterminator="\n")
        out.writeheader()
        for sfen in sfens:
            rows.append(row_of(here, other, sfen, arguments.go, arguments.depth))
            out.writerow(rows[-1])
            sys.stdout.flush()
    tell(summary_of(rows))
    return 0


def main() -> int:
    """The command; gives its status."""
    try:
        return run()
    except (Gone, OSError) as why:
        tell(why)
        return 2
    except KeyboardInterrupt:
        tell("Ctrl-C; the rows above are done")
        return 130
