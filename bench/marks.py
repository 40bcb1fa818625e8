#!/usr/bin/env python3
"""Which of the moves that share/examples/analyse.py marks are mistakes by another engine, Fairy-Stockfish (the Debian
package `fairy-stockfish`, in /usr/games). Prints a row for each game, and the sums.

    marks.py [--program PATH | --socket PATH] [--depth N] [--slip PERCENT] [--engine COMMAND] [--engine-depth N]
             [--games FILE | --play N [--seed N] [--keep FILE]] [--judged FILE] [GAME ..]

GAME are numbers of games, counted from 1 (all of them). They are those of bench/games.txt, or of FILE, a record as
analyse.py reads it; or N games that the engine plays against itself, by turns as a weak and as a strong player, each
from a seed of its own, so that they are the same at each run. --keep writes these games there. The engine takes some
minutes for a game; --judged keeps its values in a file and takes them from there at the next run.

A mark is real if its move loses 10 % of the chance of winning or more by the engine, and shared if it is among the
fifteen moves that lose most by it. Both losses are by one formula. A mark is idle if the engine sees its mover mate
after the move, or has one side beyond 95 % before and after it. A large mistake loses 20 % or more by the engine."""

import argparse
import contextlib
import json
import math
import os
import random
import shlex
import sys

TOP = os.path.dirname(os.path.dirname(os.path.abspath(__file__)))
sys.path.insert(0, os.path.join(TOP, "share", "examples"))

from shogi_host import Engine  # noqa: E402
from shogi_host.analyse import answers_of, depth_for, text_of_game  # noqa: E402
from shogi_host.commands import add_arguments, client_of  # noqa: E402
from shogi_host.records import read_games  # noqa: E402
from shogi_host.report.values import SLIP, Analysis, chance  # noqa: E402

AMONG, REAL, LARGE, DECIDED = 15, 0.1, 0.2, 0.95
# The depth at which a player looks, and how far below the best move, in hundredths of a pawn, its choice spreads.
SKILLS = ((3, 250), (6, 60))
LINES, OPENING, LONGEST, RESIGNS = 8, 10, 240, -2500


def values_of(replies):
    """The last value of each line of a `go`: its first move, hundredths of a pawn, and plies to a mate."""
    found = {}
    for words in (reply.split() for reply in replies if " score " in reply and "bound" not in reply):
        kind, number = words[words.index("score") + 1 :][:2]
        line = int(words[words.index("multipv") + 1]) if "multipv" in words else 1
        move = words[words.index("pv") + 1] if "pv" in words else ""
        found[line] = (move, int(number), None) if kind == "cp" else (move, None, 1 if int(number) > 0 else -1)
    return [found[line] for line in sorted(found)]


def asked(engine, text, depth):
    """The values of the lines for a position; none where no move is legal."""
    engine.send(f"position {text}")
    engine.send(f"go depth {depth}")
    return values_of(engine.read_until("bestmove"))


def played(engine, seed):
    """The moves of a game that the engine plays against itself."""
    choice, (depth, spread), moves = random.Random(seed), SKILLS[seed % len(SKILLS)], []
    engine.send("usinewgame")
    engine.send(f"setoption name MultiPV value {LINES}")
    while len(moves) < LONGEST:
        lines = asked(engine, f"startpos moves {' '.join(moves)}", depth)
        if not lines:
            return moves
        points = [cp if mate is None else 10_000 * mate for _, cp, mate in lines]
        if max(points) < RESIGNS and len(moves) > OPENING:
            return [*moves, "resign"]
        wide = max(spread, 100) if len(moves) < OPENING else spread
        weights = [math.exp((value - max(points)) / wide) for value in points]
        moves.append(choice.choices([move for move, _, _ in lines], weights)[0])
    return moves


class Judge:
    """Another engine's chances of winning for the positions of games, for the side to move."""

    def __init__(self, command, depth, path):
        self.command, self.depth, self.path, self.known = shlex.split(command), depth, path, {}
        if path and os.path.exists(path):
            with open(path, encoding="ascii") as file:
                self.known = json.load(file)

    def chances(self, game):
        """The chances before each move, and at the end."""
        texts = [text_of_game(game, plies) for plies in range(len(game.moves) + 1)]
        key = f"{self.depth} {texts[-1]}"
        if key not in self.known:
            with contextlib.closing(Engine.popen(self.command, lines=None)) as engine:
                lines = [asked(engine, text, self.depth) for text in texts]
            self.known[key] = [found[0][1:] if found else (None, -1) for found in lines]
            if self.path:
                with open(self.path, "w", encoding="ascii") as file:
                    json.dump(self.known, file)
        return [chance(tuple(value)) for value in self.known[key]]


def is_idle(before, after):
    """Whether the mover mates after its move, or the game was decided before and after; by the mover's chances."""
    return after == 1 or min(before, after) > DECIDED or max(before, after) < 1 - DECIDED


def judged_marks(chances, marks):
    """How many marks are real, shared and idle, and how many large mistakes there are and were marked."""
    before, after = chances[:-1], [1 - of for of in chances[1:]]
    lost = [here - there for here, there in zip(before, after)]
    worst = sorted(range(len(lost)), key=lambda plies: -lost[plies])[:AMONG]
    large = {plies for plies, of in enumerate(lost) if of >= LARGE}
    return {
        "marks": len(marks),
        "real": sum(lost[plies] >= REAL for plies in marks),
        "shared": len(set(marks) & set(worst)),
        "idle": sum(is_idle(before[plies], after[plies]) for plies in marks),
        "large": len(large),
        "marked": len(large & set(marks)),
    }


def games_of(arguments):
    """The games to look at."""
    if arguments.play:
        with contextlib.closing(Engine.popen(shlex.split(arguments.engine), lines=None)) as engine:
            lines = [" ".join(played(engine, arguments.seed + number)) for number in range(arguments.play)]
        data = "\n".join(lines).encode() + b"\n"
        if arguments.keep:
            with open(arguments.keep, "wb") as file:
                file.write(data)
        return read_games(data)
    with open(arguments.games, "rb") as file:
        return read_games(file.read())


def arguments_of():
    parser = argparse.ArgumentParser(description="Which marks are mistakes by another engine.")
    add_arguments(parser, None, "as analyse.py")
    parser.add_argument("--slip", type=float, default=100 * SLIP, metavar="PERCENT", help="what a mark loses (16)")
    parser.add_argument("--engine", default="/usr/games/fairy-stockfish", help="the other engine's command")
    parser.add_argument("--engine-depth", type=int, default=11, metavar="N", help="how deep it looks (11)")
    where = parser.add_mutually_exclusive_group()
    where.add_argument("--games", default=os.path.join(TOP, "bench", "games.txt"), metavar="FILE")
    where.add_argument("--play", type=int, default=0, metavar="N", help="plays so many games")
    parser.add_argument("--seed", type=int, default=1, metavar="N", help="the first game's seed (1)")
    parser.add_argument("--keep", metavar="FILE", help="writes the games that are played there")
    parser.add_argument("--judged", metavar="FILE", help="keeps the other engine's values there")
    parser.add_argument("numbers", nargs="*", type=int, metavar="GAME")
    return parser.parse_args()


def main():
    arguments = arguments_of()
    games = games_of(arguments)
    judge = Judge(arguments.engine, arguments.engine_depth, arguments.judged)
    print("| Game | Plies | Marked | Real | Among the fifteen | Idle | Large mistakes | of them marked |")
    print("|---|---|---|---|---|---|---|---|")
    sums = dict.fromkeys(("marks", "real", "shared", "idle", "large", "marked"), 0)
    for number in arguments.numbers or range(1, len(games) + 1):
        game = games[number - 1]
        arguments.depth = arguments.depth or depth_for(game)
        analysis = Analysis(game, arguments.depth, arguments.slip / 100)
        with contextlib.closing(client_of(arguments)) as client:
            analysis.answers = list(answers_of([client], game, arguments.depth))
        found = judged_marks(judge.chances(game), analysis.marks())
        for key, count in found.items():
            sums[key] += count
        plies = ", ".join(str(mark + 1) for mark in analysis.marks()) or "none"
        cells = [number, len(game.moves), plies, *(found[key] for key in list(sums)[1:])]
        print(f"| {' | '.join(map(str, cells))} |", flush=True)
    print(f"\n{sums['real']} of {sums['marks']} marks are real, {sums['shared']} are among the engine's fifteen, "
          f"{sums['idle']} are idle; of {sums['large']} large mistakes {sums['marked']} are marked.")  # fmt: skip


if __name__ == "__main__":
    main()
