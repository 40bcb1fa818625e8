#!/usr/bin/env python3
"""bench/instructions.py [PROGRAM [ROW ..]]: counts, by callgrind, the instructions of whole `go`s under `Plain` and
under `Exchange`, and prints a row of a table for each depth from 3 to 7, and one for positions late in games. PROGRAM is
a built usi_host, by default that of this checkout; a ROW is a depth or `late`, by default all. The last column is a digest
of all answers: two builds that answer alike have the same one. All rows take some fifteen minutes on four quiet cores.

The positions are those of bench/games.txt, asked game by game, each from `startpos`. At depths 3 and 4 they are each tenth ply
of all games from ply 4 on, at depth 5 each 40th, at depth 6 each 60th, at depth 7 each 100th. Late is the 30th ply before
the end of each game, at depth 5. A row is one session over one table: of 4,096 entries, at depth 7 of 65,536."""

import hashlib
import os
import re
import subprocess
import sys
from concurrent.futures import ThreadPoolExecutor

from report import TOP, table

FIRST_PLY = 4
LATE = 30

# The depth of each row, how many plies lie between its positions, and the entries of its table.
ROWS = {
    "3": (3, 10, 4_096),
    "4": (4, 10, 4_096),
    "5": (5, 40, 4_096),
    "6": (6, 60, 4_096),
    "7": (7, 100, 65_536),
    "late": (5, None, 4_096),
}


def games():
    with open(os.path.join(TOP, "bench", "games.txt"), encoding="utf-8") as lines:
        return [line.split() for line in lines]


def plies(moves, stride):
    """The numbers of moves after which a game is asked about."""
    return range(FIRST_PLY, len(moves) + 1, stride) if stride else [len(moves) - LATE]


def session(name, evaluation):
    """The lines that are sent, and the number of positions."""
    depth, stride, _ = ROWS[name]
    lines, count = [f"setoption name Eval value {evaluation}"], 0
    for moves in games():
        lines.append("usinewgame")
        for ply in plies(moves, stride):
            lines += [f"position startpos moves {' '.join(moves[:ply])}", f"go depth {depth}"]
            count += 1
    return "".join(f"{line}\n" for line in [*lines, "quit"]), count


def counted(program, name, evaluation):
    """The instructions of a row in millions, and what was answered."""
    lines, count = session(name, evaluation)
    words = ["valgrind", "--tool=callgrind", "--callgrind-out-file=/dev/null", program]
    words += ["stdio", "--eval", "exchange", "--entries", str(ROWS[name][2])]
    done = subprocess.run(words, input=lines, capture_output=True, text=True, check=False)
    found = re.search(r"Collected : (\d+)", done.stderr)
    if done.returncode != 0 or not found or done.stdout.count("bestmove") != count:
        raise SystemExit(f"bench/instructions.py: row {name}, {evaluation}: no count\n{done.stderr}")
    return int(found.group(1)) / 1e6, done.stdout


def row(name, plain, exchange):
    digest = hashlib.sha256((plain[1] + exchange[1]).encode()).hexdigest()[:8]
    numbers = [f"{plain[0]:,.0f}", f"{exchange[0]:,.0f}", f"{exchange[0] / plain[0]:.2f}"]
    return [name, str(session(name, "Plain")[1]), f"{ROWS[name][2]:,}", *numbers, digest]


def main():
    program = sys.argv[1] if len(sys.argv) > 1 else os.path.join(TOP, "crates", "usi_host", "out", "usi_host")
    names = sys.argv[2:] or list(ROWS)
    if not os.access(program, os.X_OK) or not all(name in ROWS for name in names):
        print(__doc__, file=sys.stderr)
        raise SystemExit(2)
    with ThreadPoolExecutor(os.cpu_count()) as pool:
        asked = [(name, [pool.submit(counted, program, name, it) for it in ("Plain", "Exchange")]) for name in names]
        rows = [row(name, *[it.result() for it in both]) for name, both in asked]
    head = ["Depth", "Positions", "Entries", "Plain, M", "Exchange, M", "Exchange / Plain", "Answers"]
    print(table(head, rows))


if __name__ == "__main__":
    main()
