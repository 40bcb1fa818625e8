"""CSA, versions 1 to 3: statements, one a line or with commas between; several games with `/` between."""

import re
from typing import Iterator, Optional

from .board import EVEN, NAMES, SET, Board, name_of
from .game import Game, Move, Unreadable

ROLES = dict(zip("FU KY KE GI KI KA HI OU TO NY NK NG UM RY".split(),
                 "P L N S G B R K +P +L +N +S +B +R".split()))  # fmt: skip
MOVE = re.compile(r"([+-])(\d)(\d)([1-9])([1-9])([A-Z]{2})")
FIRST = re.compile(r"'|V\d|N[+-]|\$|P[I1-9+-]|[+-]$|[+-]\d{4}[A-Z]{2}")
TIME = re.compile(r"T(\d+(?:\.\d+)?)$")
ENCODING = re.compile(r"'CSA encoding=", re.I)
# What KIF has in its head too, beyond the names; of other statements a comment is made.
TOLD = {"$TIME_LIMIT:": "持ち時間", "$TIME:": "持ち時間", "$END_TIME:": "終了日時", "$OPENING:": "戦型"}
HEAD = {"N+": "black", "N-": "white", "$EVENT:": "event", "$SITE:": "site", "$START_TIME:": "date"}
ENDS = set(
    "TORYO CHUDAN SENNICHITE TIME_UP ILLEGAL_MOVE +ILLEGAL_ACTION -ILLEGAL_ACTION JISHOGI KACHI HIKIWAKE MAX_MOVES "
    "MATTA TSUMI FUZUMI ERROR".split()
)


def begins(text: str) -> bool:
    """Whether a line of a record, without the blanks around it, is in CSA's words."""
    return bool(FIRST.match(text))


def role_of(text: str) -> str:
    """A piece by its two letters."""
    if text not in ROLES:
        raise ValueError(f"no piece of CSA: {text}")
    return ROLES[text]


def set_rank(board: Board, text: str) -> None:
    """A rank of the board, as `P1-KY-KE * ..`."""
    for file in range(9, 0, -1):
        cell = text[2 + 3 * (9 - file) :][:3]
        if cell.strip() not in ("", "*"):
            board.squares[file, int(text[1])] = cell[0] == "+", role_of(cell[1:])


def set_pieces(board: Board, text: str) -> None:
    """Single pieces, as `P+00FU27GI`; 00 is the hand, and AL all that are left."""
    black = text[1] == "+"
    for at in range(2, len(text), 4):
        place, role = text[at : at + 2], text[at + 2 : at + 4]
        if not re.fullmatch(r"00|[1-9][1-9]", place):
            raise ValueError(f"no square of CSA: {place}")
        if place != "00" and role == "AL":
            raise ValueError(f"all that are left go to the hand, as 00AL, and not {place}AL")
        if role == "AL":
            used = [held.removeprefix("+") for _, held in board.squares.values()]
            for kind, count in SET.items():
                in_hand = sum(n for (_, of), n in board.held.items() if of == kind)
                left = count - used.count(kind) - in_hand
                if left > 0:
                    board.hold(black, kind, left)
        elif place == "00":
            if role_of(role) not in SET:
                raise ValueError(f"no piece for a hand: {role}")
            board.hold(black, role_of(role))
        else:
            board.squares[int(place[0]), int(place[1])] = black, role_of(role)


def set_start(board: Board, text: str) -> None:
    """What a statement says of the first position."""
    if text.startswith("PI"):
        if not re.fullmatch(r"PI([1-9][1-9][A-Z]{2})*", text):
            raise ValueError("after PI stand squares with the pieces that are taken away")
        board.squares = Board(EVEN).squares
        for file, rank, letters in re.findall(r"(\d)(\d)([A-Z]{2})", text[2:]):
            square = int(file), int(rank)
            if board.squares.get(square, ("", ""))[1] != role_of(letters):
                raise ValueError(f"no {letters} stands on {name_of(square)} that could be taken away")
            del board.squares[square]
    elif text[1] in "+-":
        set_pieces(board, text)
    else:
        set_rank(board, text)


def made_move(board: Board, text: str) -> str:
    """Makes a move, as `+7776FU`, where the piece is the one behind it; the move in USI's words."""
    match = MOVE.fullmatch(text)
    if match is None:
        raise ValueError(f"no move in CSA's words: {text}")
    if (match[1] == "+") != board.black:
        raise ValueError(f"it is {NAMES[board.black]}'s turn")
    origin, to = (int(match[2]), int(match[3])), (int(match[4]), int(match[5]))
    role = role_of(match[6])
    if origin == (0, 0):
        return board.drop(role, to)
    before = board.role_on(origin)
    if role not in (before, f"+{before}"):
        raise ValueError(f"the piece on {name_of(origin)} is {before}, and no {match[6]}")
    return board.move(origin, to, role != before)


def statements(lines: list[str]) -> Iterator[tuple[str, int, int]]:
    """The statements with their lines and columns. Those of the head stand on a line of their own."""
    for number, line in enumerate(lines, 1):
        for found in re.finditer(r".+" if line.startswith(("P", "N", "$", "'", "V")) else r"[^,]+", line):
            text = found[0].rstrip()
            if text and not text.startswith("V"):
                yield text, number, found.start() + 1


class Reader:
    """Reads the statements of one game after the other."""

    def __init__(self) -> None:
        self.games: list[Game] = []
        self.begin()

    def begin(self) -> None:
        """Makes room for the next game."""
        self.board, self.is_over = Board(), False
        self.game: Optional[Game] = None
        self.head: dict[str, str] = {}
        self.before: list[str] = []
        self.comments: list[str] = []  # those before the game has begun

    def keep(self, text: str) -> None:
        """Keeps a comment, as KIF has it."""
        comment = text if text.startswith("*") else f"*{text}"
        if self.game is None:
            self.comments.append(comment)
        else:
            self.game.comment(comment)

    def set_time(self, text: str) -> None:
        """Adds the seconds that the last move took."""
        match = TIME.match(text)
        if match and self.game and self.game.moves and not self.is_over:
            self.game.moves[-1] = self.game.moves[-1]._replace(seconds=float(match[1]))

    def read_told(self, text: str) -> None:
        """Reads a statement that says nothing of the moves."""
        key, value = text[: text.find(":") + 1], text[text.find(":") + 1 :].strip()
        if text.startswith("'"):
            if not ENCODING.match(text):
                self.keep(text[1:])
        elif key in TOLD:
            self.before.append(f"{TOLD[key]}：{value}")
        else:
            self.keep(text)

    def read(self, text: str, line: int, column: int) -> None:
        """Reads a statement."""
        key = next((key for key in HEAD if text.startswith(key)), None)
        if text == "/":
            self.begin()
        elif text.startswith("'"):
            self.read_told(text)
        elif text.startswith("T"):
            self.set_time(text)
        elif self.is_over:
            pass
        elif key:
            self.head[HEAD[key]] = text.removeprefix(key).strip()
        elif text.startswith("$"):
            self.read_told(text)
        elif text.startswith("%"):
            self.finish(text[1:], line, column)
        elif self.game is not None:
            self.game.moves.append(Move(made_move(self.board, text), line, column))
        elif re.match(r"P[I1-9+-]", text):
            set_start(self.board, text)
        elif text in ("+", "-"):
            self.board.black = text == "+"
            self.board.squares = self.board.squares or Board(EVEN).squares
            self.game = Game(f"sfen {self.board.sfen()}", line, column, head=self.head, before=self.before)
            for comment in self.comments:
                self.game.comment(comment)
            self.games.append(self.game)
        else:
            raise ValueError(f"neither a position of CSA nor whose turn it is, + or -: {text}")

    def finish(self, word: str, line: int, column: int) -> None:
        """Ends the game by a word."""
        if self.game is None:
            raise ValueError("an end before it is said whose turn it is, + or -")
        self.game.end, self.is_over = word, True
        if word not in ENDS:
            self.game.note(line, column, f"the game ends by a word that is not known: %{word}")


def read(lines: list[str]) -> list[Game]:
    """The games of a record in CSA."""
    reader = Reader()
    for text, line, column in statements(lines):
        try:
            reader.read(text, line, column)
        except ValueError as why:
            raise Unreadable(line, column, str(why)) from why
    if not reader.games:
        raise Unreadable(len(lines), 1, "the record ends before it says whose turn it is, + or -")
    return reader.games
