"""Grades positions: a file of SFENs or `position` lines to CSV, or to JSON, one object a line.

    shogi-grade [--program PATH | --socket PATH] [--depth N] [--eval NAME] [--lines N] [--jobs N] [--format csv|jsonl]
             [--resume GRADES] [--timeout SECONDS] [--patience SECONDS] [FILE] > grades.csv

Each row has the SFEN, the depth, the best move, its score in hundredths of a pawn or as a mate in plies,
and the best line. Where the side to move has no legal move, the best move is "resign", without a score or a
line. With --lines there is a row for each of so many best moves, with its number, and with `lead`, by how much it
is better than the next one: hundredths of a pawn, `mate` where only one of the two is a mate, `2 plies` between
mates, `only` where no other move is legal. An object of JSON is a position, with all its lines.

With --jobs so many programs, or sessions of a host, grade at a time; the output is the same, in the order of the
input. With --resume the output goes to that file, behind what an earlier call with the same words wrote there before
it was cut off.

A position that is refused has a row with the reason in the last column, and the status is 1 then; it is
2 where the program cannot be started, does not answer in time, or the host is gone. Empty lines, and those that begin
with #, are skipped. Progress is shown on a terminal, and at the end how many positions a second were graded. The output
is UTF-8."""

import argparse
import contextlib
import csv
import io
import json
import os
import sys
import time
from typing import BinaryIO, Callable, Optional, Sequence, Union

from .commands import add_arguments, client_of, in_order, show_progress, tell, told_evaluation
from .engine import Engine, Line
from .errors import Gone, Refused
from .report.values import Loss, loss_of
from .records import Unreadable
from .records.encoding import lines_of

COLUMNS = ["sfen", "depth", "best", "cp", "mate", "pv", "error"]
LINES = range(1, 9)
JOBS = range(1, 257)


class Other(Exception):
    """The file of --resume is of other positions, or was written with other words."""


def lead_of(lines: Sequence[Line], at: int, wanted: int) -> Loss:
    """By how much a line is better than the next one; nothing where that one was not asked for."""
    if at + 1 < len(lines):
        return loss_of(*((line.cp, line.mate) for line in lines[at : at + 2]))
    return "only" if at == 0 and wanted > 1 else ""


class Csv:
    """Rows with a head; a position has one for each of its lines."""

    def __init__(self, depth: int, evaluation: str, wanted: int):
        del evaluation
        self.depth, self.wanted = depth, wanted
        self.columns = COLUMNS if wanted == 1 else [*COLUMNS[:2], "line", *COLUMNS[2:-1], "lead", "error"]
        self.head = self.text([dict(zip(self.columns, self.columns))])

    def text(self, rows: Sequence[dict[str, object]]) -> str:
        """Rows as text."""
        out = io.StringIO()
        csv.DictWriter(out, self.columns, extrasaction="ignore", lineterminator="\n").writerows(rows)
        return out.getvalue()

    def refused(self, sfen: str, why: str) -> str:
        """A position that is refused."""
        return self.text([{"sfen": sfen, "depth": self.depth, "line": 1, "error": why}])

    def graded(self, sfen: str, best: str, lines: Sequence[Line]) -> str:
        """A position with its best move and its lines."""
        row: dict[str, object] = {"sfen": sfen, "depth": self.depth, "line": 1, "best": best}
        rows: list[dict[str, object]] = [
            row
            | {
                "line": line.number,
                "best": line.pv[0],
                "cp": "" if line.cp is None else line.cp,
                "mate": "" if line.mate is None else line.mate,
                "pv": " ".join(line.pv),
                "lead": lead_of(lines, at, self.wanted),
            }
            for at, line in enumerate(lines)
        ]
        return self.text(rows or [row])

    def read(self, line: str) -> tuple[str, bool, bool]:
        """The position of a row, whether it was refused, and whether it is the first row of the position."""
        row = dict(zip(self.columns, next(csv.reader([line]), [])))
        if row.get("depth") != str(self.depth) or len(row) != len(self.columns):
            raise ValueError
        return row["sfen"], bool(row["error"]), row.get("line", "1") == "1"


class Jsonl:
    """An object of JSON for each position, on a line of its own."""

    head = ""

    def __init__(self, depth: int, evaluation: str, wanted: int):
        self.made: dict[str, object] = {"depth": depth, "eval": evaluation, "multipv": wanted}
        self.wanted = wanted

    def text(self, sfen: str, **more: object) -> str:
        """An object as text."""
        return json.dumps({"sfen": sfen, **self.made, **more}, ensure_ascii=False) + "\n"

    def refused(self, sfen: str, why: str) -> str:
        """A position that is refused."""
        return self.text(sfen, error=why)

    def graded(self, sfen: str, best: str, lines: Sequence[Line]) -> str:
        """A position with its best move and its lines."""
        objects = []
        for at, line in enumerate(lines):
            entry: dict[str, object] = {"cp": line.cp} if line.mate is None else {"mate": line.mate}
            entry["pv"], lead = line.pv, lead_of(lines, at, self.wanted)
            if lead != "":
                entry["lead"] = lead
            objects.append(entry)
        return self.text(sfen, best=best, lines=objects)

    def read(self, line: str) -> tuple[str, bool, bool]:
        """The position of a row, whether it was refused, and that it is the first row of the position."""
        row = json.loads(line)
        if not isinstance(row, dict) or any(row.get(name) != value for name, value in self.made.items()):
            raise ValueError
        return str(row.get("sfen")), "error" in row, True


Form = Union[Csv, Jsonl]
FORMATS: dict[str, Callable[[int, str, int], Form]] = {"csv": Csv, "jsonl": Jsonl}


def graded(client: Engine, sfen: str, form: Form, depth: int) -> tuple[str, bool]:
    """The rows of a position as text, and whether it was refused."""
    try:
        answer = client.analyse(sfen, depth)
    except Refused as why:
        return form.refused(sfen, str(why).split(":", 1)[0]), True
    lines = [line for line in answer.lines if line.depth == depth and line.number <= form.wanted]
    return form.graded(sfen, answer.best, lines), False


def positions_of(path: Optional[str]) -> list[str]:
    """The positions of a file, or of standard input."""
    if path is None:
        data = sys.stdin.buffer.read()
    else:
        with open(path, "rb") as file:
            data = file.read()
    lines = [line.strip() for line in lines_of(data)]
    return [line for line in lines if line and not line.startswith("#")]


def resumed(path: str, form: Form, sfens: Sequence[str]) -> tuple[BinaryIO, list[bool]]:
    """Cuts a file off behind its last position that is whole. The file, and whether each position in it was refused."""
    file = open(path, "r+b" if os.path.exists(path) else "w+b")
    end, head = 0, form.head.encode()
    done: list[tuple[int, bool]] = []
    for number, line in enumerate(file, 1):
        if not line.endswith(b"\n"):
            break
        if number == 1 and head:
            if line != head:
                raise Other(f"{path}:1: written with other words")
        else:
            try:
                sfen, is_refused, is_first = form.read(line.decode())
            except (ValueError, csv.Error) as why:
                raise Other(f"{path}:{number}: no row of these words") from why
            if is_first:
                done.append((end, is_refused))
            if not done or len(done) > len(sfens) or sfen != sfens[len(done) - 1]:
                raise Other(f"{path}:{number}: another position")
        end += len(line)
    if done and form.head and form.wanted > 1:
        # Whether its last row is there, only the next position would tell.
        end = done.pop()[0]
    file.truncate(end)
    file.seek(end)
    return file, [is_refused for _, is_refused in done]


def grade(
    sfens: Sequence[str],
    form: Form,
    clients: Sequence[Engine],
    arguments: argparse.Namespace,
    stack: contextlib.ExitStack,
) -> int:
    """Grades the positions; how many were refused, those of an earlier call with them."""
    if arguments.resume is None:
        out: BinaryIO = sys.stdout.buffer
        done: list[bool] = []
    else:
        out, done = resumed(arguments.resume, form, sfens)
        stack.callback(out.close)
    if arguments.resume is None or out.tell() == 0:
        out.write(form.head.encode())
        out.flush()
    left, refused, began = sfens[len(done) :], sum(done), time.monotonic()

    def work(client: Engine, sfen: str) -> tuple[str, bool]:
        return graded(client, sfen, form, arguments.depth)

    for number, (text, is_refused) in enumerate(in_order(clients, left, work), len(done) + 1):
        out.write(text.encode())
        out.flush()
        refused += is_refused
        show_progress(f"{number} of {len(sfens)}, {refused} refused")
    took = max(time.monotonic() - began, 1e-3)
    show_progress("", "\r")
    before = f", {len(done)} before" if done else ""
    rate = len(left) / took
    tell(
        f"{len(sfens)} positions{before}, {refused} refused; {took:.1f} s, {rate:.1f} a second, "
        f"{rate / len(clients):.1f} with each of {len(clients)}"
    )
    return refused


def arguments_of() -> argparse.Namespace:
    """What the command line asks for."""
    parser = argparse.ArgumentParser(description="Grades positions: SFENs or position lines to CSV or JSON.")
    add_arguments(parser)
    parser.add_argument(
        "--lines", type=int, choices=LINES, default=1, metavar="N", help="so many best moves, from 1 to 8 (1)"
    )
    parser.add_argument(
        "--jobs",
        type=int,
        choices=JOBS,
        metavar="N",
        help="so many positions at a time (one for each processor; over a socket 1)",
    )
    parser.add_argument("--format", choices=FORMATS, default="csv", help="csv, or jsonl: an object a position (csv)")
    parser.add_argument("--resume", metavar="GRADES", help="write there, behind what an earlier call wrote")
    parser.add_argument("file", nargs="?", help="SFENs or position lines, one a line (standard input)")
    arguments = parser.parse_args()
    if arguments.jobs is None:
        arguments.jobs = 1 if arguments.socket else min(len(os.sched_getaffinity(0)), JOBS[-1])
    return arguments


def run() -> int:
    """Grades what the command line says; the status."""
    arguments = arguments_of()
    try:
        sfens = positions_of(arguments.file)
    except Unreadable as why:
        tell(f"{arguments.file or '<stdin>'}:{why}")
        return 1
    with contextlib.ExitStack() as stack:
        clients: list[Engine] = []
        while len(clients) < max(1, min(arguments.jobs, len(sfens))):
            clients.append(stack.enter_context(client_of(arguments, arguments.lines)))
        if told := told_evaluation(clients[0], arguments):
            tell(told)
        form = FORMATS[arguments.format](arguments.depth, str(clients[0].options["Eval"]), arguments.lines)
        refused = grade(sfens, form, clients, arguments, stack)
    return 1 if refused else 0


def main() -> int:
    """The command; gives its status."""
    try:
        return run()
    except (Gone, Other, OSError) as why:
        show_progress("", "\r")
        tell(why)
        return 2
    except KeyboardInterrupt:
        show_progress("", "\n")
        tell("Ctrl-C; the rows above are done")
        return 130
