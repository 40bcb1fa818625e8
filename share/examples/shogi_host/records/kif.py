"""KIF and KI2: a head, maybe with a diagram, and then a line for each move, or moves with marks as `▲７六歩`."""

import re
from typing import Optional

from .board import EVEN, Board
from .game import Game, Move, Unreadable
from .japanese import HANDICAPS, IS_MOVE, MARKS, RANKS, ROLES, holds_pieces, made_move, set_hand, set_handicap

NUMBER = re.compile(r"\s*([0-9０-９]+)[\s　]+(?=\S)")
TIME = re.compile(r"\(\s*(?:(\d+):)?(\d+):(\d+(?:\.\d+)?)\s*/")  # what a move took, `( 0:12/00:01:30)`
FILES = re.compile(r"[9９][\s　]*[8８][\s　]*[7７]")  # the line above a diagram
FIRST = re.compile(r".*：|手数|\*|\||\+--|\s*[0-9０-９]+[\s　]+\S|[先後上下]手番|[▲△☗☖▼▽]|まで")
MARK = "".join(MARKS)
HEAD = {
    "先手": "black",
    "下手": "black",
    "後手": "white",
    "上手": "white",
    "棋戦": "event",
    "表題": "event",
    "開始日時": "date",
    "対局日": "date",
    "場所": "site",
    "手合割": "handicap",
    "作品名": "title",
    "作者": "author",
    "詰手数": "length",
}
# Lines of a head in which no pieces stand, whatever they say.
WORDS = {*HEAD, "持ち時間", "終了日時", "戦型", "備考"}
PASS = "パス"
ENDS = set(
    "投了 中断 千日手 持将棋 詰み 切れ負け 反則勝ち 反則負け 入玉勝ち 不戦勝 不戦敗 封じ手 不詰 時間切れ 反則行為 入玉宣言 勝ち宣言 "
    "引き分け 接続切れ タイムアップ TIME_UP".split()
)


def begins(text: str) -> bool:
    """Whether a line of a record, without the blanks around it, is in the words of KIF or KI2."""
    return bool(FIRST.match(text))


def seconds_of(line: str) -> Optional[float]:
    """The seconds that a move took by its line, or None where it does not say."""
    match = TIME.search(line)
    return 3600 * int(match[1] or 0) + 60 * int(match[2]) + float(match[3]) if match else None


def is_comment(line: str) -> bool:
    """Whether a line is a comment or a bookmark."""
    return line.strip()[:1] in ("*", "&")


def set_rank(board: Board, text: str) -> None:
    """A rank of the board, as `|v香v桂 ・ .. |一`."""
    match = re.fullmatch(r"\|((?:.[^|]){9})\|([一二三四五六七八九]).*", text)
    if match is None:
        raise ValueError("no rank of a board")
    for file in range(9, 0, -1):
        at = 2 * (9 - file)
        side, piece = match[1][at], match[1][at + 1]
        if piece in ROLES:
            board.squares[file, RANKS.index(match[2]) + 1] = side not in "vV", ROLES[piece]
        elif piece != "・":
            raise ValueError(f"no piece of KIF: {piece}")


class Reader:
    """Reads the lines of one game."""

    def __init__(self) -> None:
        self.board = Board()
        self.game: Optional[Game] = None
        self.head: dict[str, str] = {}
        self.last: Optional[tuple[int, int]] = None
        self.ranks: set[str] = set()
        self.is_open = False  # whether a board has to follow
        self.comments: list[str] = []  # those before the game has begun
        self.end: Optional[tuple[int, int]] = None  # where the word stands that ends the game
        self.late = 0  # how many moves stand behind it
        self.is_numbered = True  # whether each move has a line with its number

    def begin(self, number: int) -> Game:
        """The game at its first move."""
        if self.game is None:
            if self.is_open and not self.ranks:
                raise ValueError("a first position of its own, その他, without a board")
            if self.ranks and len(self.ranks) < 9:
                raise ValueError(f"a board of {len(self.ranks)} ranks")
            self.board.squares = self.board.squares or Board(EVEN).squares
            self.game = Game(f"sfen {self.board.sfen()}", number, 1, head=self.head)
            for comment in self.comments:
                self.game.comment(comment)
        return self.game

    def set_key(self, key: str, value: str) -> None:
        """What a line `KEY：VALUE` of the head says."""
        name = re.sub("持ち?駒", "持駒", key)
        if key in HEAD:
            self.head[HEAD[key]] = value
        if key == "手合割":
            kind = re.sub("[落]$", "落ち", value)
            if kind in HANDICAPS:
                set_handicap(self.board, kind)
            elif kind not in ("平手", "その他", ""):
                raise ValueError(f"a handicap that is not known: {value}")
            self.is_open = kind == "その他"
        elif name in ("先手の持駒", "下手の持駒", "後手の持駒", "上手の持駒"):
            set_hand(self.board, key[0] in "先下", value)
        elif key == "手番":
            if value[:1] not in tuple("先下後上"):
                raise ValueError(f"a turn that is not known: {value}")
            self.board.black = value[0] in "先下"
        elif "駒" in key or key not in WORDS and holds_pieces(value):
            raise ValueError(f"a line of the head that is not known and holds pieces: {key}")

    def read_head(self, text: str) -> None:
        """What a line of the head says. Most say nothing of the position."""
        key, colon, value = re.split(r"([：:]|$)", text, maxsplit=1)
        if text.startswith("|"):
            if not self.ranks:
                self.board.squares = {}
            set_rank(self.board, text)
            self.ranks.add(text.rpartition("|")[2][:1])
        elif text[1:3] == "手番":
            self.board.black = text[0] in "先下"
        elif colon and not text.startswith("手数"):
            self.set_key(key.strip(), value.strip())
        elif not text.startswith(("手数", "+-", "盤面回転")) and not FILES.match(text):
            raise ValueError("neither a line of a head nor a move of KIF")

    def read_move(self, text: str, number: int, column: int) -> bool:
        """Reads a move, or the word that ends the game; whether the game goes on."""
        game = self.begin(number)
        words = text.strip().lstrip(MARK).strip()
        if not IS_MOVE.match(words):
            word = re.split(r"[\s　(（]", words, maxsplit=1)[0]
            game.end, self.end = word, (number, column)
            if word not in ENDS:
                game.note(number, column, f"the game ends by a word that is not known: {word}")
            return False
        played, self.last = made_move(self.board, text, self.last)
        game.moves.append(Move(played, number, column, seconds_of(text)))
        return True

    def read_marked(self, line: str, number: int) -> bool:
        """Reads the moves of a line of KI2; whether the game goes on."""
        self.is_numbered = False
        for found in re.finditer(f"[{MARK}][^{MARK}]*", line):
            try:
                if self.end:
                    self.late += 1
                else:
                    self.read_move(found[0], number, found.start() + 1)
            except ValueError as why:
                raise Unreadable(number, found.start() + 1, str(why)) from why
        return self.end is None

    def read_numbered(self, match: re.Match[str], line: str, number: int) -> bool:
        """Reads a move of KIF; whether the game goes on."""
        game = self.begin(number)
        if int(match[1]) != len(game.moves) + 1:
            raise ValueError(f"move {match[1]}, where {len(game.moves) + 1} is the next")
        try:
            return self.read_move(line[match.end() :], number, match.end() + 1)
        except ValueError as why:
            raise Unreadable(number, match.end() + 1, str(why)) from why

    def read_line(self, line: str, number: int) -> bool:
        """Reads a line; whether the game goes on."""
        text = line.strip()
        if is_comment(line):
            self.keep(text)
            return True
        if not text or text[0] == "#":
            return True
        if text.startswith("まで"):
            self.finish(text, number)
            return self.game is None or not self.game.moves
        if (match := NUMBER.match(line)) and not FILES.match(text):
            return self.read_numbered(match, line, number)
        if text[0] in MARKS:
            return self.read_marked(line, number)
        if self.game is not None:
            raise ValueError("no move of KIF")
        self.read_head(text)
        return True

    def keep(self, comment: str) -> None:
        """Keeps a comment or a bookmark."""
        if self.game is None:
            self.comments.append(comment)
        else:
            self.game.comment(comment)

    def read_late(self, line: str, number: int) -> None:
        """Reads a line behind the word that ended the game: no move is lost there in silence."""
        text = line.strip()
        if text.startswith("まで"):
            self.finish(text, number)
        elif is_comment(line):
            self.keep(text)
        elif text[:1] in MARKS:
            self.late += sum(letter in MARKS for letter in text)
        elif (match := NUMBER.match(line)) and IS_MOVE.match(line[match.end() :].lstrip(MARK)):
            self.late += 1

    def finish(self, text: str, number: int) -> None:
        """The end as the last line tells it, `まで115手で後手の勝ち`."""
        told = re.sub(r"^まで[0-9０-９]*手?で?", "", text)
        game = self.begin(number)
        game.end = game.end or told.strip()

    def whole(self, lines: list[str], read: int) -> Game:
        """The game, once so many of its lines are read: variations follow, or nothing."""
        game = self.begin(read)
        if self.late and self.end:
            if game.end == PASS:
                raise Unreadable(*self.end, f"a pass, {PASS}, with moves behind it: the rules have no pass")
            many = "s" * (self.late > 1)
            game.note(*self.end, f"left out: {self.late} move{many} behind the end of the game, {game.end}")
        places = [move.line for move in game.moves] + ([self.end[0]] if self.end else [])
        first, last = (places[0] - 1, places[-1]) if places else (read, read)
        game.before, game.behind = (
            [line for line in part if not is_comment(line)] for part in (lines[:first], lines[last:read])
        )
        game.behind += lines[read:]
        game.lines = lines if self.is_numbered else []
        return game


def read(lines: list[str]) -> list[Game]:
    """The game of a record in KIF or KI2, without its variations."""
    reader, is_over, read_lines = Reader(), False, len(lines)
    for number, line in enumerate(lines, 1):
        if line.lstrip().startswith("変化"):
            left = sum(other.lstrip().startswith("変化") for other in lines[number - 1 :])
            reader.begin(number).note(number, 1, f"left out: {left} variation{'s' * (left > 1)}")
            read_lines = number - 1
            break
        try:
            if is_over:
                reader.read_late(line, number)
            else:
                is_over = not reader.read_line(line, number)
        except ValueError as why:
            raise Unreadable(number, 1, str(why)) from why
    try:
        return [reader.whole(lines, read_lines)]
    except ValueError as why:
        raise Unreadable(len(lines), 1, str(why)) from why
