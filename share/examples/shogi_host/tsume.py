"""Problems of mate (tsume): how long each is, its line, and whether it is sound.

    shogi-tsume [--program PATH] [--plies N] [--jobs N] [--timeout SECONDS] [--form table|csv|json] [--html FILE]
             [--title TEXT] [--pieces japanese|international] [FILE ..] > problems.txt

A FILE has problems one a line, as SFENs, or it is a record, KIF or CSA, whose first position is the problem. Each
is solved by `usi_host mate`: the shortest mate in which each move of the attacker is a check, up to N plies (9), with
the longest defence. Interpositions count.

A problem is sound where at each of the attacker's positions on the line but the last no other check mates within N
plies in all, counted from the first move. It is cooked where one does, which is named. Keys that differ by promotion
alone, and other last moves, are listed apart. So are pieces that the attacker has left at the end.

How long a problem is said to be is read from a record's head (詰手数) or from its moves, from moves behind an SFEN, or
from a line such as `# 5 plies` above SFENs. The status is 1 where a problem cannot be read, is refused, was not
answered in time, or is not as long as it is said to be; 2 where the program cannot be started or ends; 130 after
Ctrl-C. What is done by then is written. Progress goes to standard error."""

import argparse
import csv
import json
import os
import sys
from typing import Any, Optional

from .analyse import want_place, write_file
from .commands import PROGRAM_HINT, in_order, seconds_of, show_progress, tell, write_utf8
from .errors import Gone, NotStarted
from .mates.page import page_of
from .mates.problems import Examiner, Found, Problem, read_problems
from .mates.solver import PLIES
from .mates.words import is_misstated, line_words, mate_words, notes_of
from .records import Unreadable
from .records.encoding import text_of_name

COLUMNS = "number place title sfen stated mate verdict line written cooks promotions last left drops error".split()


def data_of(number: int, problem: Problem, found: Found, pieces: str) -> dict[str, Any]:
    """A problem and what is found of it, as data."""
    mate = found.mate
    return {
        "number": number,
        "place": problem.place,
        "title": problem.title,
        "sfen": problem.sfen,
        "stated": problem.stated,
        "mate": mate.plies if mate else None,
        "verdict": found.verdict,
        "line": mate.line if mate else [],
        "written": line_words(problem, mate, pieces) if mate else "",
        **{name: [other._asdict() for other in getattr(found, name)] for name in ("cooks", "promotions", "last")},
        "left": found.left,
        "drops": found.drops,
        "error": found.error,
    }


def cell_of(value: object) -> object:
    """A value as the table of CSV has it: of another key its ply, the move and its plies."""
    if isinstance(value, (list, tuple)):
        words = (f"{it['ply']} {it['move']} {it['plies']}" if isinstance(it, dict) else str(it) for it in value)
        return ("; " if value and isinstance(value[0], dict) else " ").join(words)
    return "" if value is None else value


class Writer:
    """Writes what is found to standard output, as it comes."""

    def __init__(self, arguments: argparse.Namespace):
        self.arguments = arguments
        self.rows: list[tuple[int, Problem, Found]] = []
        self.csv = csv.DictWriter(sys.stdout, COLUMNS, lineterminator="\n")
        if arguments.form == "csv":
            self.csv.writeheader()

    def write(self, problem: Problem, found: Found) -> None:
        """Writes a row."""
        number, pieces, plies = len(self.rows) + 1, self.arguments.pieces, self.arguments.plies
        self.rows.append((number, problem, found))
        data = data_of(number, problem, found, pieces)
        if self.arguments.form == "csv":
            self.csv.writerow({name: cell_of(value) for name, value in data.items()})
        elif self.arguments.form == "json":
            print(json.dumps(data, ensure_ascii=False))
        else:
            told = [mate_words(found, plies), found.verdict if found.mate else "", data["written"], problem.title]
            print("  ".join([f"{number:4}", *(word for word in told if word)]))
            for note in notes_of(problem, found, plies, pieces):
                print(f"      {note}")
        sys.stdout.flush()


def files_of(paths: list[str]) -> tuple[list[Problem], int]:
    """The problems of the files, or of standard input, and how many files cannot be read."""
    problems: list[Problem] = []
    unread = 0
    asked: list[Optional[str]] = [*paths] or [None]
    for path in asked:
        if path is None:
            data = sys.stdin.buffer.read()
        else:
            with open(path, "rb") as file:
                data = file.read()
        name = "<stdin>" if path is None else text_of_name(path)
        try:
            problems += read_problems(data, name)
        except Unreadable as why:
            tell(f"{name}:{why}")
            unread += 1
    return problems, unread


def arguments_of() -> argparse.Namespace:
    """What the command line asks for."""
    parser = argparse.ArgumentParser(
        description="Problems of mate (tsume): how long each is, its line, and whether it is sound.",
        epilog="Each move of the attacker is a check. Lengths are in plies, and interpositions count.",
    )
    parser.add_argument("--program", default="usi_host", help="the program to start (usi_host)")
    parser.add_argument(
        "--plies", type=int, choices=PLIES, default=9, metavar="N", help="up to so many plies, odd, 1 to 15 (9)"
    )
    parser.add_argument("--jobs", type=int, default=1, metavar="N", help="how many problems at a time (1)")
    parser.add_argument(
        "--timeout", type=seconds_of, metavar="SECONDS", help="the longest that an answer may take (no limit)"
    )
    parser.add_argument("--form", choices=("table", "csv", "json"), default="table", help="what is printed (table)")
    parser.add_argument("--html", metavar="FILE", help="writes a page of boards and solutions there")
    parser.add_argument("--title", help="the title of the page (the name of the first file)")
    parser.add_argument("--pieces", choices=("japanese", "international"), default="japanese", help="japanese")
    parser.add_argument("files", nargs="*", metavar="FILE", help="SFENs one a line, KIF or CSA (standard input)")
    arguments = parser.parse_args()
    if not 1 <= arguments.jobs <= 64:
        parser.error("--jobs is from 1 to 64")
    return arguments


def write_page(arguments: argparse.Namespace, rows: list[tuple[int, Problem, Found]], is_whole: bool) -> None:
    """Writes the page where it was asked for, and where there is something to tell."""
    if arguments.html and rows:
        title = text_of_name(arguments.title or os.path.basename((arguments.files or ["Problems"])[0]))
        write_file(arguments.html, page_of(rows, arguments.plies, title, arguments.pieces, is_whole))


def run(arguments: argparse.Namespace, examiners: list[Examiner]) -> int:
    """Solves the problems; the status."""
    problems, faults = files_of(arguments.files)
    if arguments.html:
        want_place(arguments.html)
    while len(examiners) < min(arguments.jobs, max(len(problems), 1)):
        examiners.append(Examiner(arguments.program, arguments.plies, arguments.timeout))
    writer = Writer(arguments)
    answers = in_order(examiners, problems, lambda examiner, problem: examiner.examine(problem))
    try:
        for problem, found in zip(problems, answers):
            writer.write(problem, found)
            show_progress(f"{len(writer.rows)} of {len(problems)}")
            if found.error or is_misstated(problem, found, arguments.plies):
                faults += 1
                stated = f"stated is {problem.stated}, found {mate_words(found, arguments.plies)}"
                show_progress("", "\r")
                tell(f"{problem.place}: {found.error or stated}")
        show_progress("", "\r")
    except (Gone, OSError, KeyboardInterrupt) as why:
        show_progress("", "\r")
        hint = f"; {PROGRAM_HINT}" if isinstance(why, NotStarted) else ""
        cause, status = ("Ctrl-C", 130) if isinstance(why, KeyboardInterrupt) else (f"{why}{hint}", 2)
        write_page(arguments, writer.rows, False)
        tell(f"{cause}; written is what is done, {len(writer.rows)} of {len(problems)} problems")
        return status
    write_page(arguments, writer.rows, True)
    return 1 if faults else 0


def main() -> int:
    """The command; gives its status."""
    arguments = arguments_of()
    write_utf8()
    examiners: list[Examiner] = []
    try:
        return run(arguments, examiners)
    except OSError as why:
        tell(why)
        return 2
    except KeyboardInterrupt:
        show_progress("", "\r")
        tell("Ctrl-C")
        return 130
    finally:
        for examiner in examiners:
            examiner.close()
