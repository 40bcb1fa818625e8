#!/usr/bin/env python3
"""The table of a game that share/examples/analyse.py makes, computed from the rules alone, as `minimax_rows.py`
does, by plain recursion: the values by the evaluation Plain, or by Exchange, whose last captures and promotions are
answered by the other side's best exchange on one square. Usage: game_rows.py EVALUATION DEPTH "SFEN" MOVE..;
check/analysed.csv and check/exchanged.csv are those of Plain and Exchange at depth 4 for the game that stands in
check/examples.py."""

import sys

from minimax_rows import VALUES
from ranked_rows import MATE, Plain, after, has_legal, legal_codes, material, read, text

LAST = 10_000  # a king takes last


def taken_by(position, square):
    """The legal move that takes on a square with the cheapest piece, promoting where it may; the first of several."""
    board = position[0]
    found = [m for m in legal_codes(position) if m[0] == "move" and m[2] == square and square in board]
    price = {m: 2 * (VALUES[board[m[1]][1]] or LAST) + (not m[3]) for m in found}
    return min(found, key=price.get, default=None)


def settled(position, square):
    """What the side to move has once a square is settled: it stands, or takes there."""
    move = taken_by(position, square)
    stands = material(position, False)
    return stands if move is None else max(stands, -settled(after(position, move), square))


class Exchange(Plain):
    """Values by the evaluation Exchange."""

    def searched(self, position, depth):
        if depth != 1:
            return super().searched(position, depth)
        best, played = -(MATE + 1), None
        for move in legal_codes(position):
            worth = -self.left_by(position, move)
            if played is None or worth > best:
                best, played = worth, move
        return best, played

    def left_by(self, position, move):
        """What the other side has after the last move of a line."""
        q = after(position, move)
        if not has_legal(q):
            return -MATE
        is_quiet = move[0] == "drop" or move[2] not in position[0] and not move[3]
        if is_quiet:
            return material(q, False)
        return max([material(q, False)] + [settled(q, square) for square, piece in q[0].items() if piece[0] != q[2]])


def shown(value, black):
    """A value of the side to move, as Black sees it."""
    return f"cp {value if black else -value}"


def main():
    evaluation, depth = {"Plain": Plain(False), "Exchange": Exchange(False)}[sys.argv[1]], int(sys.argv[2])
    position, words = read(sys.argv[3]), sys.argv[4:]

    def value(of, plies):
        found = evaluation.value(of, plies)[0]
        assert abs(found) < MATE
        return found

    print("ply,side,move,value,best,worth,loss,drawn")
    for ply, word in enumerate([*words, None], 1):
        black = position[2]
        here, shallower = value(position, depth), value(position, depth - 1)
        best = text(evaluation.value(position, depth)[1])
        row = [str(ply), "Black" if black else "White", word or "", shown(here, black), best]
        drawn = shown(round((here + shallower) / 2), black)
        if word:
            position = after(position, next(m for m in legal_codes(position) if text(m) == word))
            worths = [-value(position, plies) for plies in (depth, depth - 1, depth - 2)]
            loss = max(0, min(here - worths[0], here - worths[1], shallower - worths[2]))
            row += [shown(worths[1], black), str(loss)]
        else:
            row += ["", ""]
        print(",".join([*row, drawn]), flush=True)


if __name__ == "__main__":
    main()
