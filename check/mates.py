#!/usr/bin/env python3
"""check/mates.py [--program FILE] [--plies N] [--positions N] [--seed N] [--fairy] [FILE]: compares the mates by checks
that the program finds with their plain definition, by the rules as bench/minimax_rows.py has them, and with
Fairy-Stockfish if that is installed; with --fairy alone with that, which takes less time at many plies. The positions are the SFENs of a file, one a line, or random ones: 20 with two kings, as many
with one or the other king alone, and as many with none, or `--positions` of each. They are compared up to N plies, 3 if
that is left out; 5 take some seconds a position.

The definition: a side mates in one move more than n if it has a legal move that gives check, after each legal reply to
which it mates in n; in none it never mates. Compared are the length, the keys at each of the attacker's positions on
the line, and that the line holds out as long as it says.

Fairy-Stockfish also mates by moves that give no check, and ends a game by repetition. So what it says is compared in
one way only: where the program mates, it has to find a mate that is no longer.

Prints each position that differs, and then how many agree. The status is 0 if all do, 1 if not, and 2 if the program
cannot be started or the file cannot be read."""

import argparse
import os
import random
import re
import shutil
import subprocess
import sys

TOP = os.path.dirname(os.path.dirname(os.path.abspath(__file__)))
BUILT = os.path.join(TOP, "crates", "usi_host", "out", "usi_host")
sys.path[:0] = [os.path.join(TOP, "bench"), os.path.join(TOP, "share", "examples")]
sys.dont_write_bytecode = True

from minimax_rows import KINDS, after, in_check, is_dead, legal_codes, on_board, read, text  # noqa: E402
from shogi_host import Gone, Mate, Refused, Solver  # noqa: E402
from shogi_host.mates.solver import PLIES  # noqa: E402

FAIRY = shutil.which("fairy-stockfish", path=os.environ.get("PATH", "") + ":/usr/games")
# Which sides have a king; and how many of each kind of piece there are.
KINGS = ((True, False), (False,), (True,), ())
SET = {"R": 2, "B": 2, "G": 4, "S": 4, "N": 4, "L": 4, "P": 18}


def is_lost(position, moves):
    """Whether the side to move is in check, and the other side mates in so many moves after each reply."""
    board, _, black = position
    return in_check(board, black) and all(mates(after(position, reply), moves) for reply in legal_codes(position))


def mates(position, moves):
    """Whether the side to move mates by checks in so many moves of its own."""
    return moves > 0 and any(is_lost(after(position, move), moves - 1) for move in legal_codes(position))


def keys(position, moves):
    """The moves after which the other side is lost in so many more."""
    return [text(move) for move in legal_codes(position) if is_lost(after(position, move), moves)]


def shortest(position, most):
    """In how few moves the side to move mates; None if it does not in so many."""
    return next((moves for moves in range(1, most + 1) if mates(position, moves)), None)


def played(position, word):
    """The position after a legal move; None if the move is not legal."""
    return next((after(position, move) for move in legal_codes(position) if text(move) == word), None)


def differences(position, answer: Mate, most):
    """What differs between the program's answer and the definition."""
    moves = shortest(position, most)
    if answer is None or moves is None:
        return [] if answer is None and moves is None else [f"here {answer}, by definition {moves} moves"]
    if answer.plies != 2 * moves - 1:
        return [f"here {answer.plies} plies, by definition {2 * moves - 1}"]
    for at, word in enumerate(answer.line):
        left = moves - (at + 1) // 2
        if at % 2 == 0:
            wanted = keys(position, left - 1)
            if list(answer.keys[at // 2]) != wanted or word != wanted[0]:
                return [f"ply {at + 1}: keys {answer.keys[at // 2]}, by definition {wanted}"]
        position = played(position, word)
        if position is None:
            return [f"ply {at + 1}: {word} is not legal"]
        if at % 2 == 1 and left > 1 and mates(position, left - 1):
            return [f"ply {at + 1}: {word} does not hold out longest"]
    return []


def mate_by_fairy(sfen, moves):
    """In how many moves Fairy-Stockfish mates, asked for a mate in so many; None if it finds none."""
    words = sfen.split()
    whole = " ".join(words if len(words) > 3 else [*words, "1"])
    lines = f"uci\nsetoption name UCI_Variant value shogi\nposition sfen {whole}\ngo mate {moves}\n"
    with subprocess.Popen([FAIRY], stdin=subprocess.PIPE, stdout=subprocess.PIPE, text=True) as process:
        process.stdin.write(lines)
        process.stdin.flush()
        found = None
        for line in process.stdout:
            if score := re.search(r" score mate (\d+)", line):
                found = int(score[1])
            if line.startswith("bestmove"):
                break
        process.stdin.write("quit\n")
        process.stdin.flush()
    return found


def sfen_of(board, held):
    """A position with Black to move, as an SFEN."""
    rows = []
    for rank in range(1, 10):
        cells = [board.get((file, rank)) for file in range(9, 0, -1)]
        row = "".join("." if cell is None else cell[1] if cell[0] else cell[1].lower() for cell in cells)
        rows.append(re.sub(r"\.+", lambda empty: str(len(empty[0])), row))
    hands = "".join(
        (str(count) if count > 1 else "") + (kind if black else kind.lower()) for (black, kind), count in held.items()
    )
    return f"{'/'.join(rows)} b {hands or '-'} 1"


def random_position(dice, kings):
    """A position of few pieces in a corner of the board, with these kings."""
    while True:
        board, held, left = {}, {}, dict(SET)
        center = dice.randint(1, 4), dice.randint(1, 3)
        if False in kings:
            board[center] = False, "K"
        for black in [True] * dice.randint(2, 5) + [False] * dice.randint(0, 3):
            square = center[0] + dice.randint(-2, 2), center[1] + dice.randint(-2, 3)
            kind = dice.choice(KINDS)
            role = kind if kind == "G" or dice.random() < 0.7 else f"+{kind}"
            is_second = role == "P" and any(board.get((square[0], rank)) == (black, "P") for rank in range(1, 10))
            is_free = on_board(square) and square not in board and not is_dead(black, role, square)
            if is_free and left[kind] and not is_second:
                board[square] = black, role
                left[kind] -= 1
        if True in kings:
            free = [(file, rank) for file in range(1, 6) for rank in range(3, 8) if (file, rank) not in board]
            board[dice.choice(free)] = True, "K"
        for black in [True] * dice.randint(1, 3) + [False] * dice.randint(0, 2):
            kind = dice.choice(KINDS)
            if left[kind]:
                held[black, kind] = held.get((black, kind), 0) + 1
                left[kind] -= 1
        if not in_check(board, False):
            return sfen_of(board, held)


def positions_of(asked):
    """The positions that are compared."""
    if asked.file:
        with open(asked.file, encoding="utf-8") as file:
            lines = [line.strip() for line in file]
        return [line for line in lines if line and not line.startswith("#")]
    dice = random.Random(asked.seed)
    return [random_position(dice, kings) for kings in KINGS for _ in range(asked.positions)]


def arguments_of():
    parser = argparse.ArgumentParser(description=__doc__.split(":")[0])
    parser.add_argument("--program", default=BUILT)
    parser.add_argument("--plies", type=int, choices=PLIES, default=3)
    parser.add_argument("--positions", type=int, default=20)
    parser.add_argument("--seed", type=int, default=1)
    parser.add_argument("--fairy", action="store_true")
    parser.add_argument("file", nargs="?")
    return parser.parse_args()


def main():
    asked = arguments_of()
    most, agree, found, by_fairy = (asked.plies + 1) // 2, 0, 0, 0
    solver = Solver(asked.program, asked.plies)
    try:
        sfens = positions_of(asked)
        for sfen in sfens:
            answer = solver.ask(sfen)
            told = [] if asked.fairy else differences(read(sfen), answer, most)
            found += answer is not None
            if FAIRY and answer is not None:
                moves = mate_by_fairy(sfen, (answer.plies + 1) // 2)
                by_fairy += 1
                if moves is None or 2 * moves - 1 > answer.plies:
                    told.append(f"here {answer.plies} plies, by Fairy-Stockfish {moves} moves")
            agree += not told
            for line in told:
                print(f"{sfen}: {line}", flush=True)
    except (Gone, Refused, OSError, UnicodeDecodeError) as why:
        print(f"check/mates.py: {why}", file=sys.stderr)
        return 2
    finally:
        solver.close()
    print(f"{agree} of {len(sfens)} positions agree up to {asked.plies} plies; {found} have a mate")
    print(f"{by_fairy} mates compared with Fairy-Stockfish" if FAIRY else "Fairy-Stockfish is not installed: left out")
    return 0 if agree == len(sfens) else 1


if __name__ == "__main__":
    sys.exit(main())
