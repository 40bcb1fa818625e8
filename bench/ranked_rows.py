#!/usr/bin/env python3
"""Worked scripts of `go` with several lines on positions of games, computed from the rules alone, as
`minimax_rows.py` does, by plain recursion and a stable sort. Games are played by chance from fixed seeds; a
position is asked about at each sixth move, and wherever few moves are legal, as deep as plain recursion is quick.
Usage: ranked_rows.py, which writes rows for crates/test_rows/data/scripts.txt."""

import random

from minimax_rows import (
    KINDS,
    VALUES,
    after,
    code,
    in_check,
    in_zone,
    is_dead,
    legal_codes,
    read,
    targets,
    text,
)

MATE = 30_000
HAND = {kind: VALUES[kind] * 11 // 10 for kind in KINDS}
START = "lnsgkgsnl/1r5b1/ppppppppp/9/9/9/PPPPPPPPP/1B5R1/LNSGKGSNL b -"

# The moves of a game between two other programs: Black is mated.
GAME = """
7g7f 8b4b 4g4f 1c1d 4i5h 3c3d 2g2f 9c9d 2f2e 1d1e 5g5f 2b3c 3g3f 3c8h 7i8h B*2b 8i7g 7a7b B*8b 9a9c 8b9a+ 2b1c
5h4g 1c2b 9a9b 6c6d 2e2d 2c2d 7g8e 1e1f 8e9c 1f1g+ 2h5h P*1h L*2c 2b4d 2c2a+ 1h1i+ 2a3a 4a3a S*4e 4d8h 5h8h
1i2i N*2c S*7g 8h5h 3a2b 2c1a+ 2i3i 9c8a+ S*3h 5i4h L*6e B*3a 6e6g+ 5h9h L*6e 8a8b 1g2g L*5b 4b5b N*6c 7b6c
6i5i 3h4g 4h3i L*3h 9h3h 2g3h
""".split()


def has_legal(position):
    """Whether a move is legal, found without all the others."""
    board, held, black = position
    for square, (color, role) in board.items():
        if color != black:
            continue
        for to in targets(board, square):
            if to in board and board[to][0] == black:
                continue
            promote = is_dead(black, role, to)
            if not in_check(after(position, ("move", square, to, promote))[0], black):
                return True
    return any(held.get((black, kind)) for kind in KINDS) and bool(legal_codes(position))


def material(position, by_hand):
    """What the side to move has more than the other one."""
    board, held, black = position
    in_hand = HAND if by_hand else VALUES

    def side(color):
        on_board = sum(VALUES[role] for owner, role in board.values() if owner == color)
        return on_board + sum(
            in_hand[kind] * count for (owner, kind), count in held.items() if owner == color
        )

    return side(black) - side(not black)


class Plain:
    """Values by one evaluation, each remembered."""

    def __init__(self, by_hand):
        self.by_hand = by_hand
        self.known = {}

    def value(self, position, depth):
        """The value, and the best move of least code."""
        board, held, black = position
        key = depth, black, frozenset(board.items()), frozenset(it for it in held.items() if it[1])
        if key not in self.known:
            self.known[key] = self.searched(position, depth)
        return self.known[key]

    def searched(self, position, depth):
        if depth == 0:
            return (material(position, self.by_hand) if has_legal(position) else -MATE), None
        best, played = -(MATE + depth), None
        for move in legal_codes(position):
            worth = -self.value(after(position, move), depth - 1)[0]
            if played is None or worth > best:
                best, played = worth, move
        return best, played

    def ranked(self, position, depth):
        moves = [
            (-self.value(after(position, move), depth - 1)[0], move)
            for move in legal_codes(position)
        ]
        return sorted(moves, key=lambda pair: -pair[0])

    def best_line(self, position, depth):
        line = []
        while depth > 0:
            move = self.value(position, depth)[1]
            if move is None:
                break
            line.append(move)
            position, depth = after(position, move), depth - 1
        return line

    def answer(self, position, lines, depth):
        said = []
        for at in range(1, depth + 1):
            for number, (worth, move) in enumerate(self.ranked(position, at)[:lines], 1):
                if abs(worth) >= MATE:
                    plies = at - (abs(worth) - MATE)
                    score = f"mate {'-' if worth < 0 else ''}{plies}"
                else:
                    score = f"cp {worth}"
                line = [move] + self.best_line(after(position, move), at - 1)
                pv = " ".join(map(text, line))
                said.append(f"info depth {at} multipv {number} score {score} pv {pv}")
        best = list(map(text, self.best_line(position, depth)))[:2]
        said.append("bestmove " + (" ponder ".join(best) if best else "resign"))
        return said


def sfen(position):
    board, held, black = position
    rows = []
    for rank in range(1, 10):
        row, empty = "", 0
        for file in range(9, 0, -1):
            piece = board.get((file, rank))
            if piece is None:
                empty += 1
                continue
            row += (str(empty) if empty else "") + (piece[1] if piece[0] else piece[1].lower())
            empty = 0
        rows.append(row + (str(empty) if empty else ""))
    hands = ""
    for color in (True, False):
        for kind in "RBGSNLP":
            count = held.get((color, kind), 0)
            if count:
                hands += (str(count) if count > 1 else "") + (kind if color else kind.lower())
    return f"{'/'.join(rows)} {'b' if black else 'w'} {hands or '-'} 1"


def paths_of_two(position):
    return sum(len(legal_codes(after(position, move))) for move in legal_codes(position))


def depth_of(position):
    paths = paths_of_two(position)
    return 3 if paths <= 150 else 2 if paths <= 1_000 else 1


class Rows:
    def __init__(self):
        self.plain = {False: Plain(False), True: Plain(True)}
        self.asked = self.deep = self.mates = 0

    def ask(self, position, by_hand, lines):
        """The lines that a session is sent, and what it answers."""
        depth = depth_of(position)
        plain = self.plain[by_hand]
        self.asked += 1
        self.deep += depth == 3
        self.mates += abs(plain.value(position, depth)[0]) >= MATE
        sent = [
            f"setoption name Eval value {'Hand' if by_hand else 'Plain'}",
            f"setoption name MultiPV value {lines}",
            f"position sfen {sfen(position)}",
            f"go depth {depth}",
        ]
        return sent, plain.answer(position, lines, depth)


def write(rows, head):
    """One script: a session that is asked about one position after another."""
    print(f"\n# {head}")
    print("< +A")
    for sent, _ in rows:
        for line in sent:
            print(f"< A {line}")
    print("> == A")
    for _, answer in rows:
        for line in answer:
            print(f"> {line}")
    print(flush=True, end="")


def main():
    asked = Rows()
    print("# Several lines on positions of games, computed by bench/ranked_rows.py from the rules alone.")
    position, rows = read(START), []
    for played, word in enumerate(GAME):
        position = after(position, next(m for m in legal_codes(position) if text(m) == word))
        if played >= 50:
            rows.append(asked.ask(position, False, played % 7 + 2))
    assert not legal_codes(position)
    write(rows, "The end of a game between two other programs.")
    for seed in range(1, 7):
        chance, position, rows = random.Random(seed), read(START), []
        for played in range(120):
            moves = legal_codes(position)
            if played % 6 == 5 or len(moves) <= 4:
                rows.append(asked.ask(position, chance.random() < 0.5, chance.randrange(2, 9)))
            if not moves:
                break
            position = after(position, chance.choice(moves))
        write(rows, f"A game by chance, from seed {seed}.")
    import sys

    print(asked.asked, asked.deep, asked.mates, file=sys.stderr)


if __name__ == "__main__":
    main()
