#!/usr/bin/env python3
"""check/legal.py [--depth N] [--program FILE] FILE: compares the legal moves of the positions of a file, and how many
sequences of N legal moves there are (3, if N is left out), with what another program says: python-shogi where Python
has it, and else Fairy-Stockfish where `fairy-stockfish` or `stockfish` is on the path. A line of the file is an SFEN;
empty lines and those that begin with # are skipped. Prints each position that differs, and then how many agree. The
status is 0 if all do, 1 if not, and 2 if there is nothing to compare with or the file cannot be read.

Fairy-Stockfish and python-shogi end a game by rules that `usi_host` does not know (repetition); lists and counts from
one position do not touch these."""

import argparse
import os
import re
import shutil
import subprocess
import sys

TOP = os.path.dirname(os.path.dirname(os.path.abspath(__file__)))
BUILT = os.path.join(TOP, "crates", "usi_host", "out", "usi_host")


class OfPython:
    """python-shogi."""

    name = "python-shogi"

    def __init__(self):
        import shogi  # pylint: disable=import-outside-toplevel

        self.shogi = shogi

    def board(self, sfen):
        words = sfen.split()
        return self.shogi.Board(" ".join(words if len(words) > 3 else [*words, "1"]))

    def moves(self, sfen):
        return sorted(move.usi() for move in self.board(sfen).legal_moves)

    def count(self, sfen, depth):
        def below(board, left):
            if left == 1:
                return sum(1 for _ in board.legal_moves)
            total = 0
            for move in list(board.legal_moves):
                board.push(move)
                total += below(board, left - 1)
                board.pop()
            return total

        return below(self.board(sfen), depth)


class OfFairy:
    """Fairy-Stockfish, by its `go perft`."""

    name = "Fairy-Stockfish"

    def __init__(self, program):
        self.program = program

    def divided(self, sfen, depth):
        words = sfen.split()
        whole = " ".join(words if len(words) > 3 else [*words, "1"])
        lines = f"usi\nsetoption name USI_Variant value shogi\nposition sfen {whole}\ngo perft {depth}\nquit\n"
        said = subprocess.run([self.program], input=lines, capture_output=True, text=True, check=True).stdout
        return dict((move, int(n)) for move, n in re.findall(r"^(\S+): (\d+)$", said, re.M))

    def moves(self, sfen):
        return sorted(self.divided(sfen, 1))

    def count(self, sfen, depth):
        return sum(self.divided(sfen, depth).values())


def other():
    """What there is to compare with."""
    try:
        return OfPython()
    except ImportError:
        pass
    for name in ("fairy-stockfish", "stockfish"):
        if shutil.which(name):
            return OfFairy(shutil.which(name))
    return None


def said_by(program, *words):
    done = subprocess.run([program, *words], capture_output=True, text=True, check=False)
    if done.returncode:
        return None, done.stderr.splitlines()[0]
    return done.stdout.splitlines(), ""


def differences(program, compared, sfen, depth):
    """What differs at a position."""
    listed, why = said_by(program, "moves", "--sfen", sfen)
    if listed is None:
        return [why]
    found = []
    theirs = compared.moves(sfen)
    for text, has, lacks in (("only here", listed, theirs), ("only there", theirs, listed)):
        rest = sorted(set(has) - set(lacks))
        if rest:
            found.append(f"{text}: {' '.join(rest)}")
    if len(listed) != len(set(listed)):
        found.append("a move is listed twice")
    counted, why = said_by(program, "perft", "--depth", str(depth), "--sfen", sfen)
    there = compared.count(sfen, depth)
    if counted != [str(there)]:
        found.append(f"depth {depth}: {' '.join(counted or [why])}, there {there}")
    return found


def main():
    parser = argparse.ArgumentParser(description=__doc__.split(":")[0])
    parser.add_argument("--depth", type=int, default=3)
    parser.add_argument("--program", default=BUILT)
    parser.add_argument("file")
    asked = parser.parse_args()
    compared = other()
    if compared is None:
        print("Neither python-shogi nor Fairy-Stockfish is there to compare with.", file=sys.stderr)
        return 2
    try:
        with open(asked.file, encoding="utf-8") as file:
            lines = [line.strip() for line in file]
    except (OSError, UnicodeDecodeError) as why:
        print(f"{asked.file}: {why}", file=sys.stderr)
        return 2
    sfens = [line for line in lines if line and not line.startswith("#")]
    agree = 0
    for sfen in sfens:
        found = differences(asked.program, compared, sfen, asked.depth)
        agree += not found
        for text in found:
            print(f"{sfen}: {text}", flush=True)
    print(f"{agree} of {len(sfens)} positions agree with {compared.name}, lists and counts to depth {asked.depth}")
    return 0 if agree == len(sfens) else 1


if __name__ == "__main__":
    sys.exit(main())
