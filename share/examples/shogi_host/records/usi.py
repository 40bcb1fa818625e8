"""Games in USI's words: moves alone, `position` lines, an SFEN before the moves, several games one a line, and
the log of a front end, of which the `position` lines are read."""

import itertools
import re
from typing import Iterable

from .board import USI_MOVE, Board
from .game import MOVES_MAX, Game, Move, Unreadable

ENDS = ("resign", "win", "draw", "timeout")
RANKS = r"[1-9PLNSGBRKplnsgbrk+]+"
BOARD = re.compile(rf"{RANKS}(/{RANKS}){{8}}")
LOOKED_AT = 20  # so many lines show whether each is a game
POSITION = re.compile(r"\bposition\s+(?:startpos\b|sfen\s)")
# Words that front ends and engines send each other, with which no line of a record begins.
LOGGED = re.compile(
    r"\s*(usi|usiok|isready|readyok|usinewgame|setoption|option|id|go|stop|ponderhit|info|bestmove|gameover|quit)\b"
)


def begins(text: str) -> bool:
    """Whether a line of a record, without the blanks around it, is in USI's words."""
    word = text.split()[0]
    known = word in ("position", "startpos", "sfen")
    return known or bool(USI_MOVE.fullmatch(word) or BOARD.fullmatch(word))


def is_log(lines: list[str]) -> bool:
    """Whether the lines are what a front end and an engine said to each other."""
    sent = [line for line in lines if POSITION.search(line)]
    around = any(not line.lstrip().startswith("position") for line in sent)
    return bool(sent) and (around or any(map(LOGGED.match, lines)))


def words_of(line: str, number: int) -> list[Move]:
    """The words of a line with their places."""
    if line.lstrip().startswith("#"):
        return []
    return [Move(found[0], number, found.start() + 1) for found in re.finditer(r"\S+", line)]


def game_of(words: list[Move]) -> Game:
    """The game of these words."""
    at = 1 if words[0].text == "position" else 0
    first = words[min(at, len(words) - 1)]
    start = "startpos"
    if first.text == "startpos":
        at += 1
    elif first.text == "sfen" or BOARD.fullmatch(first.text):
        end = at + (first.text == "sfen")
        while end < len(words) and words[end].text != "moves" and not USI_MOVE.fullmatch(words[end].text):
            end += 1
        sfen = [word.text for word in words[at:end]]
        start = " ".join(sfen if first.text == "sfen" else ["sfen", *sfen])
        at = end
    elif at == 1:
        raise Unreadable(first.line, first.column, "neither startpos nor sfen after position")
    if words[at : at + 1] and words[at].text == "moves":
        at += 1
    game = Game(start, first.line, first.column)
    if len(words) > at and words[-1].text in ENDS:
        game.end = words.pop().text
    for word in words[at:]:
        if not USI_MOVE.fullmatch(word.text):
            raise Unreadable(word.line, word.column, f"no move in USI's words: {word.text}")
    game.moves = words[at:]
    return game


def is_playable(words: Iterable[Move]) -> bool:
    """Whether these are legal moves from the opening position on, with or without an end. No game is longer than
    `MOVES_MAX`."""
    board, left = Board.of("startpos"), iter(words)
    for word in itertools.islice(left, MOVES_MAX):
        if not board.is_legal(word.text):
            return word.text in ENDS and next(left, None) is None
        board.play(word.text)
    return next(left, None) is None


def is_split(rows: list[list[Move]]) -> bool:
    """Whether lines of moves alone are games of their own: the first ones are playable one by one, and all of them not
    in a row."""
    if len(rows) < 2 or not all(USI_MOVE.fullmatch(row[0].text) for row in rows):
        return False
    return not is_playable(itertools.chain(*rows)) and all(map(is_playable, rows[:LOOKED_AT]))


def logged_games(lines: list[str]) -> list[Game]:
    """The games of a log: a `position` line that goes on with the one before is of the same game."""
    games: list[Game] = []
    for number, line in enumerate(lines, 1):
        found = POSITION.search(line)
        if found is None:
            continue
        words = [
            word._replace(column=word.column + found.start()) for word in words_of(line[found.start() :], number)
        ]
        after = next((at for at, word in enumerate(words) if word.text == "moves"), len(words))
        end = after + 1
        while end < len(words) and USI_MOVE.fullmatch(words[end].text):
            end += 1
        game = game_of(words[:end])
        if games and games[-1].start == game.start:
            shorter, longer = sorted((games[-1], game), key=lambda one: len(one.moves))
            if [move.text for move in shorter.moves] == [move.text for move in longer.moves[: len(shorter.moves)]]:
                games[-1] = longer
                continue
        games.append(game)
    return [game for game in games if game.moves] or games[:1]


def with_comments(games: list[Game], lines: list[str]) -> list[Game]:
    """The games, each with the lines that begin with `#` among its own: as comments of KIF."""
    for number, line in enumerate(lines, 1):
        if line.lstrip().startswith("#"):
            game = next((game for game in reversed(games) if game.line <= number), games[0])
            played = sum(move.line < number for move in game.moves)
            game.comments.setdefault(played, []).append(f"*{line.strip().lstrip('#').strip()}")
    return games


def read(lines: list[str]) -> list[Game]:
    """The games of a record in USI's words."""
    if is_log(lines):
        return logged_games(lines)
    rows = [row for row in (words_of(line, number) for number, line in enumerate(lines, 1)) if row]
    if is_split(rows):
        return with_comments([game_of(row) for row in rows], lines)
    games: list[list[Move]] = []
    for row in rows:
        if games and USI_MOVE.fullmatch(row[0].text) or games and row[0].text in ENDS:
            games[-1].extend(row)
        else:
            games.append(row)
    return with_comments([game_of(words) for words in games], lines)
