#!/usr/bin/env python3
"""Builds the program, and measures whole runs of it: from its start to the answer to `go` from the opening
position; beside it Fairy-Stockfish, where that is installed. Writes its part of docs/BENCHMARKS.md. The
depths are the arguments, or 3 to 7."""

import os
import shutil
import subprocess
import sys
import time

from report import TOP, put, table

FOLDER = os.path.join(TOP, "crates", "usi_host")
PROGRAM = os.path.join(FOLDER, "out", "usi_host")
FAIRY = shutil.which("fairy-stockfish", path=os.environ.get("PATH", "") + ":/usr/games")
OF_SHOGI = "uci\nsetoption name UCI_Variant value shogi\nposition startpos\n"
DEPTHS = range(3, 8)
TRIES = 15


def build():
    built = subprocess.run(
        ["rt", "run"], cwd=FOLDER, stdin=subprocess.DEVNULL, stdout=subprocess.PIPE, stderr=subprocess.STDOUT, text=True
    )
    if built.returncode != 0:
        raise SystemExit(built.stdout)


def run(path, before, depth):
    """The seconds from the start of the program to its `bestmove`, and that move."""
    begin = time.perf_counter()
    with subprocess.Popen([path], stdin=subprocess.PIPE, stdout=subprocess.PIPE, text=True) as program:
        program.stdin.write(f"{before}go depth {depth}\n")
        program.stdin.flush()
        for line in program.stdout:
            if line.startswith("bestmove"):
                took = time.perf_counter() - begin
                program.stdin.write("quit\n")
                program.stdin.flush()
                return took, line.split()[1]
    raise SystemExit(f"{path} gave no move")


def least(path, before, depth):
    return min(run(path, before, depth) for _ in range(TRIES))


def main():
    build()
    rows = []
    for depth in [int(word) for word in sys.argv[1:]] or DEPTHS:
        seconds, move = least(PROGRAM, "", depth)
        row = [str(depth), move, f"{1000 * seconds:,.1f}"]
        if FAIRY:
            seconds, move = least(FAIRY, OF_SHOGI, depth)
            row += [move, f"{1000 * seconds:,.1f}"]
        rows.append(row)
    head = ["Depth", "Best move", "Milliseconds"]
    if FAIRY:
        head += ["Fairy-Stockfish", "Milliseconds"]
    text = table(head, rows)
    print(text)
    put("go", text)


if __name__ == "__main__":
    main()
