#!/usr/bin/env python3
"""Asks the built program for the value of each position of six games, under Plain and under Exchange, and compares
what each move loses with what another program says. Prints a table.

    bench/usefulness.py [--program FILE] [--depths D,D..] [--write]

FILE is the built program, crates/usi_host/out/usi_host unless it is given. Each D is a depth from 2 to 16; without
them they are 3, 4 and 5, which takes half a minute. With --write the table also goes to docs/BENCHMARKS.md, which says
what its columns are. The status is 2 for an argument that is not accepted, and 1 where the program does not answer.

The other program's values are in bench/judged_games.csv: a row for each position, with the move that was played there
(none at the end of a game) and its value for the side to move, in hundredths of a pawn as that program counts them,
30000 where this side mates. They are by Fairy-Stockfish 11.1 at depth 11."""

import argparse
import csv
import os
import shutil
import subprocess
import sys

from report import TOP, put, table

PROGRAM = os.path.join(TOP, "crates", "usi_host", "out", "usi_host")
GAMES = os.path.join(TOP, "bench", "judged_games.csv")
EVALS = ["Plain", "Exchange"]
DEPTHS = [3, 4, 5]
# The game that begins with moves of the opening books, and how many.
BOOK, BOOK_MOVES = "side pawn", 16
MATE = 30_000
# What the other program's hundredths of a pawn are in ours, since a pawn that is taken counts twice here.
SCALE = 3.5
# Losses count as this at most, so that a mate that is missed does not outweigh all others.
LOSS_MAX = 1500
# A value counts as this at most where two depths are compared, mates too.
VALUE_MAX = 3000
GRAVE, SLIGHT = 400, 200
# A position is open where the other program's value is less than this on either side.
OPEN = 700


def refuse(why, status=2):
    print(f"bench/usefulness.py: {why}", file=sys.stderr)
    sys.exit(status)


def depths_of(text):
    for word in text.split(","):
        if not word.isascii() or not word.isdigit() or not 2 <= int(word) <= 16:
            refuse(f"--depths: {word or 'nothing'} is no depth from 2 to 16")
    return sorted({int(word) for word in text.split(",")})


def program_of(text):
    path = shutil.which(text)
    if path is None:
        refuse(f"--program: {text} is no program that can be started")
    return path


def judged_games():
    """The moves of each game, and the other program's value of each position, by its name."""
    games = {}
    with open(GAMES, encoding="ascii", newline="") as file:
        for row in csv.DictReader(file):
            moves, values = games.setdefault(row["game"], ([], []))
            if row["move"]:
                moves.append(row["move"])
            values.append(int(row["value"]))
    return games


def value_in(words):
    """The value that an info line has after its `score`."""
    kind, number = words[words.index("score") + 1 :][:2]
    return int(number) if kind == "cp" else -MATE if number.startswith("-") else MATE


def values_of(path, evaluation, moves, depth):
    """The values of each position of a game: a list, with a value for each depth from 1 to this one."""
    lines = [f"setoption name Eval value {evaluation}"]
    for ply in range(len(moves) + 1):
        lines += [" ".join(["position startpos moves", *moves[:ply]]), f"go depth {depth}"]
    asked = "\n".join([*lines, "quit", ""])
    words = [path, "stdio", "--eval", "exchange"]
    ended = subprocess.run(words, input=asked, capture_output=True, text=True, check=False)
    found, values = [], []
    for words in map(str.split, ended.stdout.splitlines()):
        if "score" in words:
            values.append(value_in(words))
        elif words[:1] == ["bestmove"]:
            # without a legal move there are no info lines
            found.append(values or [-MATE] * depth)
            values = []
        else:
            refuse(f"the program said: {' '.join(words)}", 1)
    if len(found) != len(moves) + 1:
        said = ended.stderr.partition("\n")[0]
        refuse(f"the program ended with status {ended.returncode} and said: {said or 'nothing'}", 1)
    return found


def within(value):
    """The value, or what is nearest to it among those that a change is counted of."""
    return max(-VALUE_MAX, min(value, VALUE_MAX))


def lost(before, after, scale=1.0):
    """What a move loses, from the values before and after it, each for the side to move."""
    return min(max(scale * (before + after), 0), LOSS_MAX)


def correlation(pairs):
    """Pearson's."""
    n = len(pairs)
    (mean_x, mean_y) = (sum(pair[at] for pair in pairs) / n for at in (0, 1))
    both = sum((x - mean_x) * (y - mean_y) for x, y in pairs)
    spread = sum((x - mean_x) ** 2 for x, _ in pairs) * sum((y - mean_y) ** 2 for _, y in pairs)
    return both / spread**0.5 if spread else 0.0


def row_of(games, values, evaluation, depth):
    pairs, of_open, book, changes = [], [], [], []
    for name, (moves, judged) in games.items():
        ours = values[name]
        for ply in range(len(moves)):
            mine = lost(ours[ply][depth - 1], ours[ply + 1][depth - 2])
            theirs = lost(judged[ply], judged[ply + 1], SCALE)
            pairs.append((mine, theirs))
            if abs(judged[ply]) < OPEN:
                of_open.append((mine, theirs))
            if name == BOOK and ply < BOOK_MOVES:
                book.append(mine)
        for at in ours:
            changes.append(abs(within(at[depth - 1]) - within(at[depth - 2])))
    grave = [theirs for mine, theirs in pairs if mine >= GRAVE]
    return [
        f"{evaluation}, {depth}",
        f"{correlation(pairs):.2f}",
        f"{correlation(of_open):.2f}",
        f"{len(grave):,}",
        f"{sum(theirs < SLIGHT for theirs in grave):,}",
        f"{sum(changes) / len(changes):.0f}",
        f"{sum(book) / len(book):.0f} / {max(book):,.0f}",
    ]


HEAD = ["Evaluation, depth", "All moves", "Open positions", "Lose 400", "False", "Change", "Book"]


def main():
    class Parser(argparse.ArgumentParser):
        def error(self, message):
            refuse(message)

    parser = Parser(allow_abbrev=False, add_help=False)
    parser.add_argument("--program", default=PROGRAM)
    parser.add_argument("--depths", default=",".join(map(str, DEPTHS)))
    parser.add_argument("--write", action="store_true")
    told = parser.parse_args()
    depths, path, games = depths_of(told.depths), program_of(told.program), judged_games()
    rows = []
    for evaluation in EVALS:
        values = {name: values_of(path, evaluation, moves, depths[-1]) for name, (moves, _) in games.items()}
        rows += [row_of(games, values, evaluation, depth) for depth in depths]
    text = table(HEAD, rows)
    print(text)
    if told.write:
        put("usefulness", text)


if __name__ == "__main__":
    main()
