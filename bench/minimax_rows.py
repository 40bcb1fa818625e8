#!/usr/bin/env python3
"""Minimax values of small positions, computed from the rules alone by plain recursion over lists.

It knows nothing of the program: moves are made by trying every square and every drop, and a value
is the greatest of the negated values after each legal move. Usage: minimax_rows.py SFEN DEPTH
"""
import sys

STRAIGHT = [(0, -1), (1, 0), (-1, 0), (0, 1)]
DIAGONAL = [(1, -1), (-1, -1), (1, 1), (-1, 1)]
GOLD = [(0, -1), (1, -1), (-1, -1), (1, 0), (-1, 0), (0, 1)]
STEPS = {'P': [(0, -1)], 'N': [(1, -2), (-1, -2)], 'S': [(0, -1)] + DIAGONAL, 'G': GOLD,
         'K': STRAIGHT + DIAGONAL, '+P': GOLD, '+L': GOLD, '+N': GOLD, '+S': GOLD,
         '+B': STRAIGHT, '+R': DIAGONAL}
SLIDES = {'L': [(0, -1)], 'B': DIAGONAL, 'R': STRAIGHT, '+B': DIAGONAL, '+R': STRAIGHT}
VALUES = {'P': 100, 'L': 300, 'N': 400, 'S': 500, 'G': 600, 'B': 800, 'R': 1000, '+P': 600, '+L': 600,
          '+N': 600, '+S': 600, '+B': 1100, '+R': 1300, 'K': 0}
KINDS = 'PLNSGBR'

def read(sfen):
    rows, side, hands = sfen.split()[:3]
    board = {}
    for rank, row in enumerate(rows.split('/'), 1):
        file, plus = 9, ''
        for c in row:
            if c.isdigit():
                file -= int(c)
            elif c == '+':
                plus = '+'
            else:
                board[file, rank] = (c.isupper(), plus + c.upper())
                file, plus = file - 1, ''
    held, count = {}, ''
    for c in hands if hands != '-' else '':
        if c.isdigit():
            count += c
        else:
            held[c.isupper(), c.upper()] = held.get((c.isupper(), c.upper()), 0) + int(count or 1)
            count = ''
    return board, held, side == 'b'

def on_board(square):
    return 1 <= square[0] <= 9 and 1 <= square[1] <= 9

def targets(board, square):
    black, role = board[square]
    sign = 1 if black else -1
    for df, dr in STEPS.get(role, []):
        to = (square[0] + df, square[1] + sign * dr)
        if on_board(to):
            yield to
    for df, dr in SLIDES.get(role, []):
        to = (square[0] + df, square[1] + sign * dr)
        while on_board(to):
            yield to
            if to in board:
                break
            to = (to[0] + df, to[1] + sign * dr)

def in_check(board, black):
    kings = [s for s, p in board.items() if p == (black, 'K')]
    return any(k in targets(board, s) for k in kings for s, p in board.items() if p[0] != black)

def is_dead(black, role, square):
    rank = square[1] if black else 10 - square[1]
    return role in ('P', 'L') and rank == 1 or role == 'N' and rank <= 2

def in_zone(black, square):
    return square[1] <= 3 if black else square[1] >= 7

def after(position, move):
    board, held, black = position
    board, held = dict(board), dict(held)
    if move[0] == 'drop':
        _, kind, to = move
        board[to] = (black, kind)
        held[black, kind] -= 1
    else:
        _, origin, to, promote = move
        taken = board.get(to)
        if taken and taken[1] != 'K':
            kind = taken[1].lstrip('+')
            held[black, kind] = held.get((black, kind), 0) + 1
        _, role = board.pop(origin)
        board[to] = (black, '+' + role if promote else role)
    return board, held, not black

def safe_moves(position):
    board, held, black = position
    found = []
    for square, (color, role) in board.items():
        if color != black:
            continue
        for to in targets(board, square):
            if to in board and board[to][0] == black:
                continue
            may = role in 'PLNSBR' and (in_zone(black, square) or in_zone(black, to))
            for promote in ([False, True] if may else [False]):
                if promote or not is_dead(black, role, to):
                    found.append(('move', square, to, promote))
    for kind in KINDS:
        if not held.get((black, kind)):
            continue
        for file in range(1, 10):
            if kind == 'P' and any(board.get((file, r)) == (black, 'P') for r in range(1, 10)):
                continue
            for rank in range(1, 10):
                if (file, rank) not in board and not is_dead(black, kind, (file, rank)):
                    found.append(('drop', kind, (file, rank)))
    return [m for m in found if not in_check(after(position, m)[0], black)]

def legal_codes(position):
    kept = []
    for m in safe_moves(position):
        if m[0] == 'drop' and m[1] == 'P':
            q = after(position, m)
            if in_check(q[0], q[2]) and not safe_moves(q):
                continue
        kept.append(m)
    return sorted(kept, key=code)

def index(square):
    return (square[0] - 1) * 9 + square[1] - 1

def code(m):
    if m[0] == 'drop':
        return 13122 + KINDS.index(m[1]) * 81 + index(m[2])
    return (index(m[1]) * 81 + index(m[2])) * 2 + m[3]

def text(m):
    name = lambda s: f'{s[0]}{chr(96 + s[1])}'
    return f'{m[1]}*{name(m[2])}' if m[0] == 'drop' else name(m[1]) + name(m[2]) + '+' * m[3]

def material(position):
    board, held, black = position
    total = lambda side: sum(VALUES[r] for c, r in board.values() if c == side) + sum(VALUES[k] * n for (c, k), n in held.items() if c == side)
    return total(black) - total(not black)

def search(position, depth):
    moves = legal_codes(position)
    if not moves:
        return -(30000 + depth), [], 1
    if depth == 0:
        return material(position), [], 1
    best, nodes = None, 1
    for m in moves:
        value, line, below = search(after(position, m), depth - 1)
        nodes += below
        if best is None or -value > best[0]:
            best = (-value, [m] + line)
    return best[0], best[1], nodes

if __name__ == '__main__':
    position = read(sys.argv[1])
    for depth in range(int(sys.argv[2]) + 1):
        value, line, nodes = search(position, depth)
        print(depth, value, ' '.join(text(m) for m in line), 'codes', [code(m) for m in line], 'tree', nodes)
