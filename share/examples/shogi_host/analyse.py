"""What each move of a game was worth, and what it lost: a table, and a report for players.

    shogi-analyse [--program PATH | --socket PATH] [--depth N] [--slip PERCENT] [--jobs N] [--html FILE] [--svg FILE]
               [--kif FILE] [--json FILE] [--title TEXT] [--pieces japanese|international] [--language ja|en]
               [--second COMMAND [--second-go TEXT]] [--game N] [GAME] > table.csv

GAME is a record: moves in USI's words or `position` lines, the log of a front end, KIF, KI2 or CSA, in UTF-8,
UTF-16, Shift-JIS or EUC-JP. Each row of the table has the ply, who moved, the move that was played, the value of
the position before it, the best move, what the played move was worth, what it lost, the value as it is drawn, and
with its line a mate by checks, up to 9 plies, that the move missed; a last row has the position at the end. Values and
worths are from Black's side: hundredths of a pawn, or `mate N` in plies where Black mates, `mate -N` where White does,
and `mate 0` where the side to move is mated.

Both sides of a loss are exact and of the same depth. A move's worth at depth N is the negated value of the
position after it, one ply less deep, which the search of that position to depth N shows on its way: so each
position is searched once. The loss is the mover's, and the least on which the last two depths, and the move seen one
ply deeper, agree; so N is at least 4.

The status is 1 where the record cannot be read or has an illegal move, with its line and column on standard
error; 2 where the program cannot be started or the host is gone; 130 after Ctrl-C. What is done by then is written.
Progress is shown on a terminal."""

import argparse
import contextlib
import csv
import os
import re
import sys
import tempfile
import time
from typing import Callable, Iterator, Optional, Sequence

from .commands import add_arguments, client_of, in_order, show_progress, tell, told_evaluation, write_utf8
from .engine import Answer, Engine
from .errors import Gone, Refused
from .report.curve import picture_of
from .report.data import data_of
from .report.kif import record_of
from .report.opinion import GO, Opinion, Unusable
from .report.page import page_of
from .report.texts import LANGUAGES, language_here
from .report.threats import Threat, look_at
from .report.values import SHALLOWEST, SLIP, Analysis, Row, shown
from .report.words import Made
from .mates import missed
from .records import BYTES_MAX, Game, Unreadable, read_games
from .records.encoding import plain, text_of_name

Tell = Callable[[str], None]

# How deep a game is searched without a word, and one of so many plies or more; and where moves that are best alone are
# looked for.
DEPTH, LONG, LONG_DEPTH, ALONE_DEPTH = 7, 200, 6, 5
JOBS_MAX = 64


def depth_for(game: Game) -> int:
    """How deep a game is searched where no depth is asked for."""
    return DEPTH if len(game.moves) < LONG else LONG_DEPTH


def text_of_game(game: Game, plies: int) -> str:
    """What follows `position` after so many plies."""
    return " ".join([game.start, "moves"] + [move.text for move in game.moves[:plies]])


def check_game(client: Engine, game: Game) -> None:
    """Looks whether the host takes the whole game; else says where it does not."""
    try:
        client.set_position(text_of_game(game, len(game.moves)))
    except Refused as why:
        found = re.match(r"illegal move (\d+)", str(why))
        if found is None:
            reason = str(why).split(":", 1)[0]
            raise Unreadable(game.line, game.column, f"{reason}: {game.start}") from why
        move = game.moves[int(found[1]) - 1]
        raise Unreadable(move.line, move.column, f"illegal move {move.text}") from why


def chosen_game(data: bytes, number: int, note: Tell) -> Game:
    """The game of that number in the record, which is told where there are several; with its notes."""
    games = read_games(data)
    if number > len(games):
        raise Unreadable(1, 1, f"no game {number}: the record has {len(games)}")
    game = games[number - 1]
    if len(games) > 1:
        note(f"{game.line}:{game.column}: game {number} of {len(games)}")
    for left_out in game.notes:
        note(str(left_out))
    return game


class Table:
    """The rows of the table, written as they come."""

    def __init__(self, analysis: Analysis):
        self.analysis, self.written = analysis, 0
        self.out = csv.writer(sys.stdout, lineterminator="\n")

    def write(self) -> None:
        """Writes the rows that are new."""
        for plies in range(self.written, self.analysis.count()):
            if plies == 0:
                self.out.writerow([*Row._fields, "missed"])
            row = self.analysis.row(plies)
            values = {"value": shown(row.value), "worth": shown(row.worth), "drawn": shown(row.drawn)}
            self.out.writerow([*(row._asdict() | values).values(), missed.cell_of(self.analysis, plies)])
            sys.stdout.flush()
        self.written = self.analysis.count()


def answers_of(clients: Sequence[Engine], game: Game, depth: int) -> Iterator[Answer]:
    """The answers for the positions of a game, in its order."""
    plies_of = range(len(game.moves) + 1)
    return in_order(clients, plies_of, lambda client, plies: client.analyse(text_of_game(game, plies), depth))


def left(began: float, done: int, total: int) -> str:
    """About how long the rest takes."""
    seconds = round((time.monotonic() - began) / done * (total - done))
    return f"{seconds // 60}:{seconds % 60:02}"


def analyse(analysis: Analysis, clients: Sequence[Engine], finder: missed.Finder) -> None:
    """Fills the analysis, writes the rows as they come, and tells how far it is."""
    table, began, total = Table(analysis), time.monotonic(), len(analysis.game.moves) + 1
    for done, answer in enumerate(answers_of(clients, analysis.game, analysis.depth), 1):
        analysis.answers.append(answer)
        finder.look(analysis)
        table.write()
        told = f"{done} of {total} positions, {left(began, done, total)} left"
        show_progress(told, "\n" if done == total else "")


def alone_at(client: Engine, text: str, depth: int) -> str:
    """The best move at a position where it is better than all others by the session's two lines; else nothing."""
    lines = [line for line in client.analyse(text, depth).lines if line.depth == depth]
    if len(lines) < 2 or lines[0].score == lines[1].score:
        return ""
    return lines[0].pv[0]


def find_alone(analysis: Analysis, clients: Sequence[Engine]) -> None:
    """Finds the best moves that are better than all others, at `ALONE_DEPTH` and still at the analysis's depth."""
    clients = [client for client in clients if 2 in client.offered.get("MultiPV", ())]
    depth = min(ALONE_DEPTH, analysis.depth - 1)
    texts = [text_of_game(analysis.game, plies) for plies in range(len(analysis.game.moves))]
    if not clients:
        return
    for client in clients:
        client.configure({"MultiPV": 2})
    for plies, move in enumerate(in_order(clients, texts, lambda client, text: alone_at(client, text, depth))):
        if move and move == analysis.answers[plies].best:
            analysis.alone[plies] = move
    for client in clients:
        client.configure({"MultiPV": 1})


def find_threats(analysis: Analysis, clients: Sequence[Engine]) -> None:
    """Finds what was threatened before each slip."""
    slips = analysis.slips()

    def look(client: Engine, plies: int) -> Threat:
        return look_at(client, analysis.boards[plies], analysis.game.moves[plies].text, analysis.evaluation)

    analysis.threats.update(zip(slips, in_order(clients, slips, look)))


def second_opinion(arguments: argparse.Namespace, analysis: Analysis) -> None:
    """Asks the other engine about the marked moves; tells why where it is of no use."""
    if not arguments.second:
        return
    try:
        with contextlib.closing(Opinion(arguments.second, arguments.second_go, arguments.timeout)) as other:
            other.look(analysis, lambda plies: text_of_game(analysis.game, plies))
    except Unusable as why:
        tell(f"the second engine: {why}; the report is made without it")


def want_place(path: str) -> None:
    """Raises `OSError` where no file can be written there."""
    if os.path.exists(path) and not os.path.isdir(path):
        with open(path, "ab"):
            return
    with tempfile.TemporaryFile(dir=os.path.dirname(path) or "."):
        if os.path.isdir(path):
            raise IsADirectoryError(f"{path} is a folder")


def write_file(path: str, text: str) -> None:
    """Writes a file whole, or leaves what was there."""
    if os.path.exists(path) and not os.path.isfile(path):
        with open(path, "w", encoding="utf-8") as file:
            file.write(text)
        return
    partial = f"{path}.part"
    with open(partial, "w", encoding="utf-8") as file:
        file.write(text)
    os.replace(partial, path)


def write_reports(arguments: argparse.Namespace, analysis: Analysis, made: Made) -> bool:
    """Writes the files that were asked for, where there is something to tell. Tells of each that cannot be written;
    whether all are."""
    is_whole = True
    if not analysis.count():
        return is_whole
    reports: list[tuple[Optional[str], Callable[[], str]]] = [
        (arguments.html, lambda: page_of(analysis, made)),
        (arguments.svg, lambda: picture_of(analysis, made)),
        (arguments.kif, lambda: record_of(analysis, made)),
        (arguments.json, lambda: data_of(analysis, made)),
    ]
    for path, text_of in reports:
        if path:
            try:
                write_file(path, text_of())
            except OSError as why:
                tell(str(why))
                is_whole = False
    return is_whole


def arguments_of() -> argparse.Namespace:
    """What the command line asks for."""
    parser = argparse.ArgumentParser(
        description="What each move of a game was worth and lost, as CSV, and as a report for players.",
        epilog="Values are from Black's side, at depth N. A loss is the least on which the last two depths agree.",
    )
    add_arguments(parser, None, f"{DEPTH}; {LONG_DEPTH} from {LONG} plies on")
    parser.add_argument("--html", metavar="FILE", help="writes a report for players there, a page of its own")
    parser.add_argument("--svg", metavar="FILE", help="draws the game there")
    parser.add_argument("--kif", metavar="FILE", help="writes the record there as KIF, with comments")
    parser.add_argument("--json", metavar="FILE", help="writes all of it there as data")
    parser.add_argument("--title", help="the title of the report (the players' names, or that of the record)")
    parser.add_argument("--pieces", choices=("japanese", "international"), default="japanese", help="japanese")
    parser.add_argument("--language", choices=LANGUAGES, default=language_here(), help="that of LANG")
    parser.add_argument(
        "--slip", type=float, default=100 * SLIP, metavar="PERCENT", help="the chance of winning that a slip loses (16)"
    )
    parser.add_argument("--second", metavar="COMMAND", help="another USI engine, asked about the marked moves")
    parser.add_argument("--second-go", default=GO, metavar="TEXT", help=f"what follows its go ({GO})")
    parser.add_argument("--game", type=int, default=1, metavar="N", help="which game of the record (1)")
    parser.add_argument(
        "--jobs", type=int, metavar="N", help="how many positions at a time (the processors; 1 with --socket)"
    )
    parser.add_argument(
        "game_file",
        nargs="?",
        metavar="GAME",
        help="a record: USI's moves or position lines, KIF, KI2, CSA (standard input)",
    )
    arguments = parser.parse_args()
    if arguments.depth is not None and arguments.depth < SHALLOWEST:
        parser.error(f"the depth is at least {SHALLOWEST}, so that two depths say something of a loss")
    if arguments.jobs is None:
        arguments.jobs = 1 if arguments.socket else min(os.cpu_count() or 1, JOBS_MAX)
    if arguments.game < 1 or not 1 <= arguments.jobs <= JOBS_MAX:
        parser.error(f"--game counts from 1, and --jobs is from 1 to {JOBS_MAX}")
    if not 1 <= arguments.slip <= 100:
        parser.error("--slip is from 1 to 100 percent")
    return arguments


def record_at(path: Optional[str]) -> tuple[bytes, str]:
    """The bytes of the record, and its name as text."""
    if path is None:
        return sys.stdin.buffer.read(BYTES_MAX + 1), "<stdin>"
    with open(path, "rb") as file:
        return file.read(BYTES_MAX + 1), text_of_name(path)


def run(arguments: argparse.Namespace, clients: list[Engine]) -> int:
    """Analyses the game; the status."""
    data, name = record_at(arguments.game_file)
    for path in (arguments.html, arguments.svg, arguments.kif, arguments.json):
        if path:
            want_place(path)
    try:
        game = chosen_game(data, arguments.game, lambda note: tell(f"{name}:{note}"))
        asked, arguments.depth = arguments.depth, arguments.depth or SHALLOWEST
        clients.append(client_of(arguments))
        if asked is None:
            arguments.depth = min(depth_for(game), clients[0].depths()[-1])
        check_game(clients[0], game)
    except Unreadable as why:
        tell(f"{name}:{why}")
        return 1
    if told := told_evaluation(clients[0], arguments):
        tell(told)
    arguments.eval = str(clients[0].options["Eval"])
    while len(clients) < min(arguments.jobs, len(game.moves) + 1):
        clients.append(client_of(arguments))
    analysis = Analysis(game, arguments.depth, arguments.slip / 100, arguments.eval)
    title = "a game" if arguments.game_file is None else os.path.basename(name)
    named = None if arguments.title is None else text_of_name(arguments.title)
    made = Made(plain(clients[0].title), arguments.eval, title, arguments.pieces, named, arguments.language)
    finder = missed.Finder(arguments.program, arguments.timeout, tell)
    try:
        analyse(analysis, clients, finder)
        find_threats(analysis, clients)
        find_alone(analysis, clients)
        second_opinion(arguments, analysis)
    except (Gone, Refused, OSError, KeyboardInterrupt) as why:
        show_progress("", "\r")
        cause, status = ("Ctrl-C", 130) if isinstance(why, KeyboardInterrupt) else (why, 2)
        write_reports(arguments, analysis, made)
        moves = min(analysis.count(), len(game.moves))
        tell(f"{cause}; written is what is done, {moves} of {len(game.moves)} moves")
        return status
    finally:
        finder.close()
    return 0 if write_reports(arguments, analysis, made) else 2


def main() -> int:
    """The command; gives its status."""
    arguments = arguments_of()
    write_utf8()
    clients: list[Engine] = []
    try:
        return run(arguments, clients)
    except (Gone, OSError) as why:
        tell(why)
        return 2
    except KeyboardInterrupt:
        tell("Ctrl-C")
        return 130
    finally:
        for client in clients:
            client.close()
