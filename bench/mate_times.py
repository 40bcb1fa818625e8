#!/usr/bin/env python3
"""Asks the built program for a mate by checks at each position of the games of bench/games.txt and bench/more_games.txt,
and times the answers. Writes its table to docs/BENCHMARKS.md with --write.

    bench/mate_times.py [--program FILE] [--plies N] [--write]

FILE is the built program, crates/usi_host/out/usi_host unless it is given. N is the longest mate that is looked for,
11 if it is left out. A time is from the line that is sent to the line that answers it, the least of three. The status
is 1 where the program does not answer."""

import argparse
import os
import statistics
import subprocess
import sys
import time

from report import TOP, put, table

sys.path.insert(0, os.path.join(TOP, "share", "examples"))

from shogi_host.mates.solver import PLIES  # noqa: E402
from shogi_host.records import read_games  # noqa: E402
from shogi_host.records.board import Board  # noqa: E402

PROGRAM = os.path.join(TOP, "crates", "usi_host", "out", "usi_host")
TRIES = 3
# The shortest mates of the table.
FIRST = 5


def positions():
    """Each position of the games once, in which a side is to move."""
    games, found = [], {}
    for name in ("games.txt", "more_games.txt"):
        with open(os.path.join(TOP, "bench", name), "rb") as file:
            games += read_games(file.read())
    for game in games:
        board = Board.of(game.start)
        for move in game.moves:
            found[board.sfen()] = None
            board.play(move.text)
        found[board.sfen()] = None
    return list(found)


def timed(program, plies, sfens):
    """The answer to each position, and its least time in milliseconds."""
    answers = [(None, float("inf"))] * len(sfens)
    for _ in range(TRIES):
        words = [program, "mate", "--plies", str(plies)]
        with subprocess.Popen(words, stdin=subprocess.PIPE, stdout=subprocess.PIPE, text=True, bufsize=1) as process:
            for at, sfen in enumerate(sfens):
                began = time.perf_counter()
                process.stdin.write(f"{sfen}\n")
                said = process.stdout.readline().strip()
                if not said:
                    print(f"bench/mate_times.py: no answer to {sfen}", file=sys.stderr)
                    sys.exit(1)
                answers[at] = said, min(answers[at][1], 1000 * (time.perf_counter() - began))
            process.stdin.close()
    return answers


def number(milliseconds):
    """A time with two figures."""
    return f"{milliseconds:,.0f}" if milliseconds >= 10 else f"{milliseconds:.2g}"


def main():
    parser = argparse.ArgumentParser(description=__doc__.split("\n", maxsplit=1)[0])
    parser.add_argument("--program", default=PROGRAM)
    parser.add_argument("--plies", type=int, choices=PLIES, default=11)
    parser.add_argument("--write", action="store_true")
    asked = parser.parse_args()
    sfens = positions()
    longest = timed(asked.program, asked.plies, sfens)
    without = [sfen for sfen, (said, _) in zip(sfens, longest) if said.startswith("no mate")]
    rows = []
    for plies in range(FIRST, asked.plies + 1, 2):
        times = [took for said, took in longest if said == f"mate {plies}"]
        mates = [str(len(times)), number(statistics.median(times)), number(max(times))] if times else ["0", "", ""]
        last = longest if plies == asked.plies else timed(asked.program, plies, without)
        none = [took for said, took in last if said.startswith("no mate")]
        rows.append([str(plies), *mates, str(len(none)), number(statistics.mean(none)), number(max(none))])
    head = ["Plies", "Mates", "Median", "Most", "Without a mate", "Mean", "Most"]
    text = table(head, rows)
    print(text)
    if asked.write:
        put("mates", text)


if __name__ == "__main__":
    main()
