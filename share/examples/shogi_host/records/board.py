"""A board with its pieces in hand: positions as SFEN, moves, and how pieces go. The mate by the drop of a pawn
is not looked at: the program is asked whether a game is legal."""

import re
from typing import Iterator

EVEN = "lnsgkgsnl/1r5b1/ppppppppp/9/9/9/PPPPPPPPP/1B5R1/LNSGKGSNL"
NAMES = ("White", "Black")
SET = {"R": 2, "B": 2, "G": 4, "S": 4, "N": 4, "L": 4, "P": 18}
USI_MOVE = re.compile(r"([1-9])([a-i])([1-9])([a-i])(\+?)|([PLNSGBR])\*([1-9])([a-i])")

Square = tuple[int, int]  # file and rank, both from 1 to 9

# Steps as files to the mover's left and ranks forward; of a piece that slides, one step of each slide.
GOLD = [(0, 1), (1, 1), (-1, 1), (1, 0), (-1, 0), (0, -1)]
CROSS = [(0, 1), (1, 0), (-1, 0), (0, -1)]
CORNERS = [(1, 1), (-1, 1), (1, -1), (-1, -1)]
STEPS = {
    "P": [(0, 1)],
    "N": [(1, 2), (-1, 2)],
    "S": [(0, 1), *CORNERS],
    "G": GOLD,
    "K": CROSS + CORNERS,
    "+P": GOLD,
    "+L": GOLD,
    "+N": GOLD,
    "+S": GOLD,
    "+B": CROSS,
    "+R": CORNERS,
}
SLIDES = {"L": [(0, 1)], "B": CORNERS, "R": CROSS, "+B": CORNERS, "+R": CROSS}


def name_of(square: Square) -> str:
    """A square in USI's words."""
    return f"{square[0]}{'abcdefghi'[square[1] - 1]}"


def square_of(file: str, rank: str) -> Square:
    """The square of USI's two letters."""
    return int(file), "abcdefghi".index(rank) + 1


def steps_of(black: bool, role: str, table: dict[str, list[tuple[int, int]]]) -> list[tuple[int, int]]:
    """The steps of a piece on the board; Black's forward is towards rank 1."""
    sign = 1 if black else -1
    return [(sign * left, -sign * forward) for left, forward in table.get(role, [])]


class Board:
    """Where the pieces are, as whether they are Black's and their role, and whose turn it is."""

    def __init__(self, rows: str = "9/9/9/9/9/9/9/9/9", black: bool = True):
        self.squares: dict[Square, tuple[bool, str]] = {}
        self.held: dict[tuple[bool, str], int] = {}
        self.black = black
        for rank, row in enumerate(rows.split("/"), 1):
            file = 9
            for cell in re.findall(r"\+?[A-Za-z]|\d", row):
                if cell.isdigit():
                    file -= int(cell)
                else:
                    self.squares[file, rank] = cell[-1].isupper(), cell.upper()
                    file -= 1

    @classmethod
    def of(cls, start: str) -> "Board":
        """The position of `startpos` or `sfen ..`, which has to be well formed."""
        if start == "startpos":
            return cls(EVEN)
        rows, side, hands = (start.split() + ["b", "-"])[1:4]
        board = cls(rows, side == "b")
        for count, letter in re.findall(r"(\d*)([A-Za-z])", hands):
            board.hold(letter.isupper(), letter.upper(), int(count or 1))
        return board

    def hold(self, black: bool, role: str, count: int = 1) -> None:
        """Puts pieces in hand."""
        self.held[black, role] = self.held.get((black, role), 0) + count

    def hand(self, black: bool) -> list[tuple[str, int]]:
        """What a side has in hand, dearest first."""
        return [(role, self.held[black, role]) for role in SET if self.held.get((black, role))]

    def sfen(self) -> str:
        """The position as an SFEN."""
        rows = []
        for rank in range(1, 10):
            row = ""
            for file in range(9, 0, -1):
                black, role = self.squares.get((file, rank), (True, "."))
                row += role if black else role.lower()
            rows.append(re.sub(r"\.+", lambda empty: str(len(empty[0])), row))
        hands = "".join(
            (str(count) if count > 1 else "") + (role if black else role.lower())
            for black in (True, False)
            for role, count in self.hand(black)
        )
        return f"{'/'.join(rows)} {'b' if self.black else 'w'} {hands or '-'} 1"

    def role_on(self, square: Square) -> str:
        """The piece of the side to move on a square."""
        black, role = self.squares.get(square, (None, ""))
        if black != self.black:
            raise ValueError(f"{NAMES[self.black]} has no piece on {name_of(square)}")
        return role

    def move(self, origin: Square, to: Square, promote: bool) -> str:
        """Moves a piece; the move in USI's words."""
        role = self.role_on(origin)
        if to in self.squares and self.squares[to][1] != "K":
            self.hold(self.black, self.squares[to][1].removeprefix("+"))
        del self.squares[origin]
        self.squares[to] = self.black, "+" * promote + role
        self.black = not self.black
        return name_of(origin) + name_of(to) + "+" * promote

    def drop(self, role: str, to: Square) -> str:
        """Drops a piece; the move in USI's words."""
        if not self.held.get((self.black, role)):
            raise ValueError(f"{NAMES[self.black]} has no {role} in hand")
        if to in self.squares:
            raise ValueError(f"there is a piece on {name_of(to)}")
        self.held[self.black, role] -= 1
        self.squares[to] = self.black, role
        self.black = not self.black
        return f"{role}*{name_of(to)}"

    def play(self, text: str) -> None:
        """Makes a move in USI's words, which need not be legal."""
        match = USI_MOVE.fullmatch(text)
        if match is None:
            raise ValueError(f"no move in USI's words: {text}")
        if match[6]:
            self.drop(match[6], square_of(match[7], match[8]))
        else:
            self.move(square_of(match[1], match[2]), square_of(match[3], match[4]), match[5] == "+")

    def copy(self) -> "Board":
        """A board of its own with the same position."""
        board = Board(black=self.black)
        board.squares, board.held = dict(self.squares), dict(self.held)
        return board

    def targets(self, square: Square) -> Iterator[Square]:
        """The squares that the piece on a square reaches, its own pieces' among them."""
        black, role = self.squares[square]
        for left, down in steps_of(black, role, STEPS):
            to = square[0] + left, square[1] + down
            if 1 <= to[0] <= 9 and 1 <= to[1] <= 9:
                yield to
        for left, down in steps_of(black, role, SLIDES):
            to = square[0] + left, square[1] + down
            while 1 <= to[0] <= 9 and 1 <= to[1] <= 9:
                yield to
                if to in self.squares:
                    break
                to = to[0] + left, to[1] + down

    def is_checked(self, black: bool) -> bool:
        """Whether a king of the side is attacked."""
        kings = {square for square, piece in self.squares.items() if piece == (black, "K")}
        return any(
            not kings.isdisjoint(self.targets(square))
            for square, piece in self.squares.items()
            if kings and piece[0] != black
        )

    def origins(self, role: str, to: Square) -> list[Square]:
        """Where the pieces of the side to move stand that may legally go to a square."""
        if self.squares.get(to, (None,))[0] == self.black:
            return []
        found = []
        for square, piece in self.squares.items():
            if piece == (self.black, role) and to in self.targets(square):
                after = self.copy()
                after.move(square, to, False)
                if not after.is_checked(self.black):
                    found.append(square)
        return found

    def may_promote(self, origin: Square, to: Square) -> bool:
        """Whether the piece on a square may promote by going to another one."""
        role = self.squares[origin][1]
        ranks = (origin[1], to[1])
        in_zone = min(ranks) <= 3 if self.black else max(ranks) >= 7
        return role in ("P", "L", "N", "S", "B", "R") and in_zone

    def is_stuck(self, role: str, to: Square) -> bool:
        """Whether a piece of the side to move could never move again on a square."""
        ahead = to[1] - 1 if self.black else 9 - to[1]
        return role in ("P", "L") and ahead < 1 or role == "N" and ahead < 2

    def may_drop(self, role: str, to: Square) -> bool:
        """Whether the side to move may drop a piece on a square."""
        if to in self.squares or self.is_stuck(role, to) or not self.held.get((self.black, role)):
            return False
        if role == "P" and any(self.squares.get((to[0], rank)) == (self.black, "P") for rank in range(1, 10)):
            return False
        after = self.copy()
        after.drop(role, to)
        return not after.is_checked(self.black)

    def is_legal(self, text: str) -> bool:
        """Whether a move in USI's words is legal."""
        match = USI_MOVE.fullmatch(text)
        if match is None:
            return False
        if match[6]:
            return self.may_drop(match[6], square_of(match[7], match[8]))
        origin, to = square_of(match[1], match[2]), square_of(match[3], match[4])
        black, role = self.squares.get(origin, (None, ""))
        if black != self.black or origin not in self.origins(role, to):
            return False
        return self.may_promote(origin, to) if match[5] else not self.is_stuck(role, to)

