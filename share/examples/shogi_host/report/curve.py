"""The curve of a game: Black's chance of winning after each ply, with the marked moves."""

from ..records.notation import NOTATIONS

from .svg import COLORS, path, stone, text_at
from .values import Analysis, chance_for_black
from .words import Made, lost_words, percent_of, title_of

WIDTH, HEIGHT = 720, 300
LEFT, RIGHT, UP, DOWN = 74, 24, 26, 48
TIMES = 70  # the height for the times of the moves, below the curve
LIST = 340  # the room for the list of the marked moves beside a picture of its own


UNITS = (1, 10, 100, 1_000, 10_000, 100_000)  # the longest game has 10,000 moves


def step_of(length: int, most: int) -> int:
    """The least round step by which there are at most so many."""
    return next(
        step * unit for unit in UNITS for step in (1, 2, 5) if length <= step * unit * most
    )


class Curve:
    """Where things stand: plies across, Black's chance of winning upwards."""

    def __init__(self, analysis: Analysis, made: Made):
        self.analysis, self.made = analysis, made
        self.rows = analysis.rows()
        self.plies = max(len(analysis.game.moves), 1)
        self.times = [move.seconds for move in analysis.game.moves]
        self.longest = max((seconds for seconds in self.times if seconds), default=0)
        self.height = HEIGHT + (TIMES if self.longest else 0)

    def across(self, plies: float) -> float:
        """Where a ply stands."""
        return LEFT + plies / self.plies * (WIDTH - LEFT - RIGHT)

    def upwards(self, of: float) -> float:
        """Where a chance stands."""
        return UP + (1 - of) * (HEIGHT - UP - DOWN)

    def spot(self, plies: int) -> tuple[float, float]:
        """Where the value stands that a position has after so many plies."""
        return self.across(plies), self.upwards(chance_for_black(self.rows[plies]))

    def axes(self) -> list[str]:
        """The scales."""
        end, foot = WIDTH - RIGHT, HEIGHT - DOWN
        out = []
        for percent in (0, 25, 50, 75, 100):
            y = self.upwards(percent / 100)
            color = "--soft" if percent == 50 else "--grid"
            out.append(path(f"M{LEFT} {y:.1f}H{end}", stroke=f"var({color})"))
            out.append(text_at(LEFT - 8, y + 4, f"{percent} %", text_anchor="end"))
        step = step_of(self.plies, 8)
        for plies in range(0, self.plies + 1, step):
            x = self.across(plies)
            out.append(path(f"M{x:.1f} {foot}v5", stroke="var(--soft)"))
            out.append(text_at(x, foot + 20, str(plies), text_anchor="middle"))
        say = self.made.say
        out.append(text_at((LEFT + end) / 2, HEIGHT - 6, say("plies played"), text_anchor="middle", class_="soft"))
        out.append(text_at(LEFT + 8, UP + 16, say("Black ahead"), class_="soft"))
        out.append(text_at(LEFT + 8, foot - 8, say("White ahead"), class_="soft"))
        return out

    def bars(self) -> list[str]:
        """The times of the moves, where the record has them: Black's upwards, and White's downwards."""
        if not self.longest:
            return []
        middle, tall = HEIGHT + TIMES / 2 - 4, TIMES / 2 - 8
        width = min(max((WIDTH - LEFT - RIGHT) / self.plies - 1, 1), 8)
        out = [path(f"M{LEFT} {middle:.1f}H{WIDTH - RIGHT}", stroke="var(--soft)")]
        out.append(text_at(LEFT - 8, middle + 4, self.made.say("time a move"), text_anchor="end"))
        for plies, seconds in enumerate(self.times):
            if seconds:
                high, x = tall * seconds / self.longest, self.across(plies + 1) - width / 2
                way = -1 if self.analysis.side_at(plies) == "Black" else 1
                fill = "var(--time-black)" if way < 0 else "var(--time-white)"
                out.append(path(f"M{x:.1f} {middle:.1f}v{way * high:.1f}h{width:.1f}V{middle:.1f}z", fill=fill))
        return out

    def line(self) -> str:
        """The curve."""
        points = " ".join(f"{x:.1f},{y:.1f}" for x, y in map(self.spot, range(len(self.rows))))
        return f'<polyline points="{points}" fill="none" stroke="var(--curve)" stroke-width="2"/>'

    def marks(self) -> list[str]:
        """A numbered disc for each marked move, at the value after it."""
        out: list[str] = []
        taken: list[tuple[float, float]] = []
        for number, plies in enumerate(self.analysis.marks(), 1):
            if plies + 1 >= len(self.rows):
                continue
            x, y = self.spot(plies + 1)
            black = self.rows[plies].side == "Black"
            way = 1 if black else -1
            heights = [y + sign * 20 * step for step in range(1, 14) for sign in (way, -way)]
            free = (
                height
                for height in heights
                if UP < height < HEIGHT - DOWN
                and not any(abs(x - other) < 22 and abs(height - at) < 22 for other, at in taken)
            )
            at = next(free, y + 20 * way)
            taken.append((x, at))
            out.append(path(f"M{x:.1f} {y:.1f}V{at:.1f}", stroke="var(--soft)"))
            out.append(f'<circle cx="{x:.1f}" cy="{y:.1f}" r="3.5" fill="var(--curve)"/>')
            out.append(f'<a href="#mark{number}">{stone(x, at, black, number)}</a>')
        return out

    def cursor(self) -> str:
        """The line that a script moves along the curve."""
        return path(f"M{LEFT} {UP}V{HEIGHT - DOWN}", stroke="var(--played)", stroke_width=1.5, id="now", display="none")

    def drawing(self, cursor: str = "") -> str:
        """All of it."""
        return "\n".join([*self.axes(), *self.bars(), cursor, self.line(), *self.marks()])


def list_of(analysis: Analysis, made: Made) -> list[str]:
    """The marked moves, one below the other."""
    boards, lasts, write, out = analysis.boards, analysis.ends, NOTATIONS[made.pieces], []
    marks = analysis.marks()
    title = made.say("most lost") if marks else made.say("no marks", slip=percent_of(analysis.slip))
    out.append(text_at(WIDTH + 16, 52, title, font_size=15 if marks else 13))
    for number, plies in enumerate(marks, 1):
        row, y = analysis.row(plies), 44 + 44 * number
        played, best = (write(boards[plies], move, lasts[plies]) for move in (row.move, row.best))
        words = made.say("picture mark", ply=row.ply, move=played, lost=lost_words(analysis, plies, made))
        out.append(stone(WIDTH + 28, y - 4, row.side == "Black", number))
        out.append(text_at(WIDTH + 46, y, words))
        if analysis.is_dear(plies):
            out.append(text_at(WIDTH + 46, y + 17, made.say("best", move=best), class_="soft"))
    return out


def picture_of(analysis: Analysis, made: Made) -> str:
    """A picture of its own as SVG, with a list of the marked moves beside the curve."""
    curve = Curve(analysis, made)
    width, height, title = WIDTH + LIST, curve.height + 34, title_of(analysis.game, made)
    told = made.say("chance at depth", depth=analysis.depth)
    out = [
        f'<svg xmlns="http://www.w3.org/2000/svg" viewBox="0 0 {width} {height}" '
        'font-family="sans-serif" font-size="13" fill="var(--ink)">',
        f"<style>{COLORS}.soft {{ fill: var(--soft) }}</style>",
        f'<rect width="{width}" height="{height}" fill="var(--paper)"/>',
        text_at(LEFT, 24, f"{title}: {told}", font_size=15),
        f'<g transform="translate(0 34)">{curve.drawing()}</g>',
    ]
    return "\n".join([*out, *list_of(analysis, made), "</svg>"]) + "\n"
