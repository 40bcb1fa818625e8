"""What reports say of a game in words."""

import re
from typing import NamedTuple, Optional

from ..records import Game

from .texts import say
from .values import PAWN, Analysis, Value, value_at

# What ends a line, for one program or another, and what no text or picture may hold.
BREAKS = re.compile("[\x00-\x1f\x7f\x85\u2028\u2029\ud800-\udfff]")


class Made(NamedTuple):
    """How a report was made: the program, its evaluation, the name of the record, the letters of its pieces, a title
    that was asked for, and the language."""

    program: str
    evaluation: str
    name: str
    pieces: str
    title: Optional[str] = None
    language: str = "en"

    def say(self, key: str, **words: object) -> str:
        """A text of the report."""
        return say(self.language, key, **words)


# What the words at the end of a record mean, for the side whose turn it is: whether it has won (None: a draw
# or no result), and how it came.
ENDS = {
    "resign": (False, "resignation"),
    "投了": (False, "resignation"),
    "TORYO": (False, "resignation"),
    "詰み": (False, "mate"),
    "TSUMI": (False, "mate"),
    "切れ負け": (False, "time"),
    "時間切れ": (False, "time"),
    "タイムアップ": (False, "time"),
    "TIME_UP": (False, "time"),
    "timeout": (False, "time"),
    "反則負け": (False, "foul"),
    "反則行為": (False, "foul"),
    "ILLEGAL_MOVE": (False, "foul"),
    "反則勝ち": (True, "foul"),
    "win": (True, "declaration"),
    "入玉勝ち": (True, "declaration"),
    "入玉宣言": (True, "declaration"),
    "勝ち宣言": (True, "declaration"),
    "KACHI": (True, "declaration"),
    "千日手": (None, "repetition"),
    "SENNICHITE": (None, "repetition"),
    "持将棋": (None, "impasse"),
    "JISHOGI": (None, "impasse"),
    "引き分け": (None, "draw"),
    "HIKIWAKE": (None, "draw"),
    "draw": (None, "draw"),
    "中断": (None, "broken off"),
    "CHUDAN": (None, "broken off"),
}
WON = {"先手の勝ち": "Black", "下手の勝ち": "Black", "後手の勝ち": "White", "上手の勝ち": "White"}


def in_line(text: str) -> str:
    """A text of a record or a path as part of one line: without what would end it or is no letter."""
    return BREAKS.sub(" ", text)


def result_of(analysis: Analysis, made: Made) -> str:
    """How the game ended, as its record or the last position tells; nothing where that is open."""
    game = analysis.game
    side = analysis.side_at(len(game.moves))
    other = "White" if side == "Black" else "Black"
    if game.end in WON:
        return made.say("won plainly", side=made.say(WON[game.end]))
    if game.end in ENDS:
        won, how = ENDS[game.end]
        if won is None:
            return made.say(how)
        return made.say("won", side=made.say(side if won else other), how=made.say(how))
    if analysis.is_whole and not analysis.answers[-1].lines:
        return made.say("won", side=made.say(other), how=made.say("mate"))
    return in_line(game.end)


def signed(number: float) -> str:
    """A number with its sign, and a half as `.5`."""
    return f"{number:+g}".replace("-", "−") if number else "0"


def plies_words(count: int, made: Made) -> str:
    """A number of plies."""
    return made.say("ply" if count == 1 else "plies", count=count)


def pawns(value: Value, made: Made) -> str:
    """A value in pawns that Black has won, or the plies of a mate."""
    cp, mate = value
    if mate is None:
        return signed(round((cp or 0) / PAWN, 1))
    if mate == 0:
        return made.say("mated")
    side = made.say("Black" if mate > 0 else "White")
    return made.say("mates", side=side, plies=plies_words(abs(mate), made))


def percent_of(chance: float) -> str:
    """A chance in percent."""
    return f"{100 * chance:.0f} %"


def lost_words(analysis: Analysis, plies: int, made: Made) -> str:
    """What a move lost, in words."""
    percent = percent_of(analysis.lost(plies))
    if analysis.row(plies).loss != "mate":
        return made.say("lost", percent=percent)
    mate = value_at(analysis.answers[plies], analysis.depth)[1]
    return made.say("lost, missed" if mate is not None and mate > 0 else "lost, allowed", percent=percent)


def seconds_words(seconds: float, made: Made) -> str:
    """A time in words."""
    if seconds < 60:
        return made.say("seconds", count=f"{seconds:g}")
    return made.say("minutes", minutes=int(seconds) // 60, seconds=int(seconds) % 60)


def players_of(game: Game) -> tuple[str, str]:
    """The names of Black and White; nothing where the record has none."""
    return in_line(game.head.get("black", "")), in_line(game.head.get("white", ""))


def title_of(game: Game, made: Made) -> str:
    """The title that was asked for, or the players where the record names them, or the name of the record."""
    black, white = players_of(game)
    if made.title:
        return in_line(made.title)
    if black or white:
        return f"☗ {black or made.say('Black')} – ☖ {white or made.say('White')}"
    return in_line(made.name)
