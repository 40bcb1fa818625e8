#!/usr/bin/env python3
"""Measures a whole `go` of the built program with 1, 2, 4 and 8 lines, for three positions. Writes its part
of docs/BENCHMARKS.md. The program has to be built: bench/go.py does that."""

import os
import subprocess
import time

from curves import POSITIONS
from report import TOP, put, table

PROGRAM = os.path.join(TOP, "crates", "usi_host", "out", "usi_host")
DEPTHS = {"opening": [3, 4, 5, 6], "middle game": [3, 4], "end of a game": [3, 4]}
LINES = [1, 2, 4, 8]
TRIES = 15


def ask(program, line):
    program.stdin.write(line + "\n")
    program.stdin.flush()


def seconds(position, depth, lines):
    """From `go` to `bestmove`, with the table of a new program."""
    placed = "startpos" if position == "startpos" else f"sfen {position}"
    with subprocess.Popen([PROGRAM], stdin=subprocess.PIPE, stdout=subprocess.PIPE, text=True) as program:
        for line in [f"setoption name MultiPV value {lines}", f"position {placed}", "isready"]:
            ask(program, line)
        if program.stdout.readline() != "readyok\n":
            raise SystemExit("the program is not ready")
        begin = time.perf_counter()
        ask(program, f"go depth {depth}")
        for line in program.stdout:
            if line.startswith("bestmove"):
                break
        end = time.perf_counter()
        ask(program, "quit")
        return end - begin


def main():
    runs = [(name, depth, lines) for name in POSITIONS for depth in DEPTHS[name] for lines in LINES]
    least = {}
    # by turns, so that a while in which the machine is slow tells on none of them alone
    for _ in range(TRIES):
        for name, depth, lines in runs:
            took = seconds(POSITIONS[name], depth, lines)
            least[name, depth, lines] = min(took, least.get((name, depth, lines), took))
    rows = [
        [name, str(depth), *(f"{1000 * least[name, depth, lines]:.1f}" for lines in LINES)]
        for name in POSITIONS
        for depth in DEPTHS[name]
    ]
    text = table(["Position", "Depth", *(f"{lines} lines" if lines > 1 else "1 line" for lines in LINES)], rows)
    print(text)
    put("multipv", text)


if __name__ == "__main__":
    main()
