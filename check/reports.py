"""Checks of share/examples/analyse.py: its table against rows that are worked out by another program or by hand,
what it marks, its reports, and what becomes of them where it is stopped or its program goes away."""

import base64
import csv
import hashlib
import html.parser
import io
import json
import os
import re
import signal
import subprocess
import sys
import tempfile
import xml.etree.ElementTree

from checks import PROGRAM, TOP, Wrong, want
from records import COMMENTS, HOSTILE, PLAYED, UNREADABLE, bytes_of
from written import kif_of

EXAMPLES = os.path.join(TOP, "share", "examples")
sys.path.insert(0, EXAMPLES)

from shogi_host import Answer, Centipawns, Engine, Line, MateIn  # noqa: E402
from shogi_host.commands import command_of  # noqa: E402
from shogi_host.report.curve import picture_of  # noqa: E402
from shogi_host.report.data import data_of  # noqa: E402
from shogi_host.report.kif import record_of  # noqa: E402
from shogi_host.report.opinion import View, view_of  # noqa: E402
from shogi_host.report.page import page_of  # noqa: E402
from shogi_host.report.shapes import shape_of, shapes  # noqa: E402
from shogi_host.report.texts import LANGUAGES, TEXTS  # noqa: E402
from shogi_host.report.threats import Threat, balance_of, cause_of, look_at  # noqa: E402
from shogi_host.report.values import Analysis, accuracy_of, agreed_loss, loss_of, lost_chance  # noqa: E402
from shogi_host.report.words import Made, pawns  # noqa: E402
from shogi_host.records import read_games  # noqa: E402
from shogi_host.records.board import Board  # noqa: E402
from shogi_host.records.notation import NOTATIONS, kif, line_of  # noqa: E402

# A game with pieces that hang, and what bench/game_rows.py works out for it at depth 4, by both evaluations.
HANGING = "4k4/9/9/4s4/9/4P4/4G4/9/4K4 b - 1"
HANGING_MOVES = "5f5e 5a4b 5e5d 4b3c 5g5f 3c4d".split()
TABLES = {}
for evaluation, name in (("Plain", "analysed.csv"), ("Exchange", "exchanged.csv")):
    with open(os.path.join(TOP, "check", name), encoding="ascii") as file:
        # No move of it misses a mate.
        head, *rows = file.read().splitlines()
        TABLES[evaluation] = "\n".join([f"{head},missed", *(f"{row}," for row in rows), ""])

MADE = Made("A Program", "Exchange", "a record", "japanese")
MATE_IN_ONE = "4k4/9/4P4/9/9/9/9/9/9 b G 1"
HEAD = "ply,side,move,value,best,worth,loss,drawn,missed\n"
# With a gold in hand and a pawn on the board against a king alone. The pawn promotes, and is taken: what is
# left is the gold against a pawn in hand.
MATE_MISSED = f"{HEAD}1,Black,5c5b+,mate 1,G*5b,cp 500,mate,mate 1,mate 1 G*5b\n2,White,,cp 500,5a5b,,,cp 500,\n"
MATE_FOUND = f"{HEAD}1,Black,G*5b,mate 1,G*5b,mate 1,0,mate 1,\n2,White,,mate 0,resign,,,mate 0,\n"

# A program that answers each position with nothing gained, and sleeps or ends after so many answers.
FAKE = """#!{python}
import sys, time
if {refuses} and len(sys.argv) > 1 or "mate" in sys.argv:
    sys.exit(2)
answers = moves = 0
for line in sys.stdin:
    words = line.split()
    if words[0] == "usi":
        print("id name A Fake\\noption name Depth type spin default 3 min 1 max {greatest}")
        print("option name Eval type combo default Plain var Plain var Hand{more}")
        print("option name MultiPV type spin default 1 min 1 max 8\\nusiok")
    if words[0] == "isready":
        print("readyok")
    if words[0] == "position":
        moves = len(words) - 3 if "moves" in words else 0
    if words[0] == "go":
        answers += 1
        if answers > {most}:
            {then}
        best = ("1g1f", "1c1d")[moves % 2]
        for depth in range(1, int(words[2]) + 1):
            print("info depth", depth, "score cp 0 pv", best)
        print("bestmove", best)
    sys.stdout.flush()
"""


def make_fake(folder, more=" var Exchange", refuses=False, greatest=16, most=10**6, then="pass"):
    """A program that is no engine; its path."""
    path = os.path.join(folder, "fake")
    with open(path, "w", encoding="ascii") as file:
        words = {"more": more, "refuses": refuses, "greatest": greatest, "most": most, "then": then}
        file.write(FAKE.format(python=sys.executable, **words))
    os.chmod(path, 0o755)
    return path


def script_of(*words):
    """The words that start analyse.py."""
    return [sys.executable, "-B", os.path.join(EXAMPLES, "analyse.py"), *words]


def in_english():
    """An environment in which reports are in English."""
    return dict(os.environ, LC_ALL="C.UTF-8")


def analysed(record, *words, depth="4"):
    """The status, the output and the lines on standard error for a record."""
    ended = subprocess.run(
        script_of(*words, "--depth", depth),
        env=in_english(),
        input=bytes_of(record),
        capture_output=True,
        timeout=300,
        check=False,
    )
    told = ended.stderr.decode().replace("\r", "\n").splitlines()
    return ended.returncode, ended.stdout.decode(), [line.strip() for line in told if line.strip()]


def has_exchange():
    """Whether the program offers the evaluation Exchange."""
    return len(command_of(PROGRAM, 4)) > 1


def rows_worked_out_by_another_program():
    game = f"sfen {HANGING} moves {' '.join(HANGING_MOVES)}\n"
    for evaluation, table in TABLES.items():
        if evaluation != "Exchange" or has_exchange():
            seen = analysed(game, "--program", PROGRAM, "--eval", evaluation)
            want(seen[:2], (0, table), evaluation)
            jobs = analysed(game, "--program", PROGRAM, "--eval", evaluation, "--jobs", "3")
            want(jobs[:2], (0, table), f"{evaluation}, three positions at a time")
            want(jobs[2], [], "what is told where no terminal is")


def mates_of_a_game():
    for move, table in [("5c5b+", MATE_MISSED), ("G*5b", MATE_FOUND)]:
        line = f"position sfen {MATE_IN_ONE} moves {move}\n"
        want(analysed(line, "--program", PROGRAM)[:2], (0, table), move)


def missed_mates():
    """In one position a gold on 5b is the one mate. In the other R*1b mates in three plies, and R*1c, to which P*1b
    replies, in five. R*2b gives no check, and the search sees that it mates. If the gold leaves, nothing mates."""
    rook = "8k/9/7G1/9/9/9/9/9/9 b Rp 1"
    for sfen, move, missed in [
        (MATE_IN_ONE, "5c5b+", "mate 1 G*5b"),
        (MATE_IN_ONE, "G*4b", "mate 1 G*5b"),
        (MATE_IN_ONE, "G*5b", ""),
        (rook, "R*1b", ""),
        (rook, "R*1c", ""),
        (rook, "R*2b", ""),
        (rook, "2c2d", "mate 3 R*1b 1a2a 1b2b+"),
    ]:
        status, table, told = analysed(f"position sfen {sfen} moves {move}\n", "--program", PROGRAM)
        want((status, table.splitlines()[1].split(",")[8]), (0, missed), f"{move}: {told}")
    with tempfile.TemporaryDirectory() as folder:
        status, table, told = analysed(f"position sfen {MATE_IN_ONE} moves G*4b\n", "--program", make_fake(folder))
        told_so = [line for line in told if "missed mates are left out: " in line]
        want((status, len(table.splitlines()), len(told_so)), (0, 3, 1), f"a program without the command: {told}")


def tables_of_other_forms():
    words = ["--program", PROGRAM]
    table = analysed(" ".join(PLAYED[:12]), *words)
    want((table[0], len(table[1].splitlines())), (0, 14), "the table of moves")
    kif = kif_of(PLAYED[:12])
    told = analysed(kif.encode("cp932"), *words)
    want(told[:2], table[:2], "KIF in Shift-JIS")
    want("analyse.py: <stdin>:34:1: left out: 1 variation" in told[2], True, told[2])
    games = f"7g7f 7c7d\n{' '.join(PLAYED[:12])}\n"
    told = analysed(games, *words, "--game", "2")
    want(told[:2], table[:2], "the second game")
    want("analyse.py: <stdin>:2:1: game 2 of 2" in told[2], True, told[2])
    told = analysed(games, *words, "--game", "3")
    want(told[::2], (1, ["analyse.py: <stdin>:1:1: no game 3: the record has 2"]), "a third game")


def answer(*values):
    """An answer with these values at depths 1, 2 and so on: hundredths of a pawn, or `m3`."""
    lines = []
    for depth, value in enumerate(values, 1):
        is_mate = isinstance(value, str)
        lines.append(Line(depth, 1, MateIn(int(value[1:])) if is_mate else Centipawns(value), ("1g1f",)))
    return Answer("1g1f" if values else "resign", None, tuple(lines))


def losses_on_which_depths_agree():
    for before, after, loss in [
        ((0, 0, 100, 300), (0, 0, 200, 100), 100),
        ((0, 0, 300, 300), (0, 0, 200, 100), 300),
        ((0, 0, 300, 300), (0, 200, 200, 100), 400),
        ((0, 0, 300, 300), (0, 200, 200, -300), 0),
        ((0, 0, "m3", "m3"), (0, -500, -500, -500), "mate"),
        ((0, 0, 500, "m3"), (0, -500, -500, -500), 0),
        ((0, 0, "m3", "m3"), ("m-4", "m-4", "m-4", "m-4"), "2 plies"),
        ((0, 0, 0, 0), ("m1", "m1", "m1", "m1"), "mate"),
        (("m1", "m1", "m1", "m1"), (), 0),
    ]:
        want(agreed_loss(answer(*before), answer(*after), 4), loss, f"{before} and {after}")
    want(loss_of((None, -3), (None, -1)), "2 plies", "a mate that comes sooner")
    # 1 / (1 + e^-1) less a half.
    lost = lost_chance(answer(0, 0, 600, 600), answer(0, 0, 0, 0), 4)
    want(round(lost, 4), 0.2311, "a lost chance")


def analysis_of(*answers):
    """An analysis of as many moves as needed."""
    analysis = Analysis(read_games(" ".join(PLAYED[: len(answers) - 1]).encode())[0], 4)
    analysis.answers = list(answers)
    return analysis


def what_is_marked():
    level, ahead, behind, lost = (answer(*[value] * 4) for value in (0, 400, -400, 1500))
    want(analysis_of(level, ahead, behind, lost).marks(), [2, 0], "the worst one first")
    want(analysis_of(level, ahead, behind, ahead).marks(), [0], "a move that lost nothing")
    # 1 / (1 + e^(-320 / 600)) is 0.63, and 1 / (1 + e^(-400 / 600)) is 0.66: a slip loses 16 % or more.
    want(analysis_of(level, answer(*[320] * 4)).marks(), [], "a loss of 13 %")
    want(analysis_of(level, answer(*[400] * 4)).marks(), [0], "a loss of 16 %")
    analysis = analysis_of(level, answer(*[320] * 4))
    analysis.slip = 0.1
    want(analysis.marks(), [0], "a loss of 13 % where slips lose 10 %")
    # Six slips one after the other: five are marked.
    many = [answer(*[400 + 100 * at] * 4) for at in range(7)]
    want((len(analysis_of(*many).slips()), len(analysis_of(*many).marks())), (6, 5), "at most five")
    # Black gives up a rook; White's reply loses nothing; then Black mates, or does not.
    given = answer(*[2000] * 4)
    want(analysis_of(level, given, answer(*[-2000] * 4)).marks(), [0], "a rook given up for nothing")
    want(analysis_of(level, given, answer(-2000, -2000, -2000, "m3")).marks(), [], "a rook given up for a mate")


def notations_of_moves():
    board = Board.of(f"sfen {MATE_IN_ONE}")
    want(NOTATIONS["japanese"](board, "G*5b"), "☗５二金", "a drop")
    want(NOTATIONS["international"](board, "G*5b"), "☗G*5b", "a drop")
    want(NOTATIONS["international"](board, "5c5b+"), "☗P-5b+", "a promotion")
    want(NOTATIONS["international"](board, "5c5b"), "☗P-5b=", "no promotion")
    want(kif(board, "5c5b+"), "５二歩成(53)", "KIF")
    start = Board.of("startpos")
    want(line_of(start, "7g7f 3c3d 8h2b+ 3a2b".split(), "japanese"), "☗７六歩 ☖３四歩 ☗２二角成 ☖同銀", "a line")
    want(line_of(start, "4i5h 3c3d".split(), "international"), "☗G4i-5h ☖P-3d", "which gold")
    want(NOTATIONS["japanese"](start, "4i5h"), "☗５八金右", "which gold")
    for cp, text in [(200, "+1"), (-100, "−0.5"), (0, "0"), (1500, "+7.5")]:
        want(pawns((cp, None), MADE), text, "a value in pawns won")
    want(pawns((None, 1), MADE), "Black mates in 1 ply", "a mate in words")
    want(pawns((None, -3), MADE._replace(language="ja")), "後手の3手詰み", "a mate in Japanese")


def accuracy_by_the_formula():
    # 103.1668 e^(-0.04354 x) - 3.1669 for x percent lost: e^-0.4354 is 0.64701, e^-2.177 is 0.11338.
    for lost, accuracy in [(0, 100.0), (0.1, 63.58), (0.5, 8.53), (1, 0.0)]:
        want(round(accuracy_of(lost), 2), accuracy, f"a move that lost {lost}")
    level, ahead = answer(*[0] * 4), answer(*[400] * 4)
    quiet = analysis_of(level, level, level)
    want([round(quiet.accuracy(side), 1) for side in ("Black", "White")], [100.0, 100.0], "a game without losses")
    # Black's first move lost 1 / (1 + e^(-2/3)) - 1/2, which is 0.16076; White's next one lost nothing.
    slip = analysis_of(level, ahead, answer(*[-400] * 4))
    want([round(slip.accuracy(side), 1) for side in ("Black", "White")], [48.1, 100.0], "a game with a slip")
    want(slip.mean_lost("White", "end"), None, "a phase without moves")


def phases_of_a_game():
    """A bishop for a bishop are two captures of pieces that are no pawns; the third one begins the middle game."""
    moves = "7g7f 3c3d 8h2b+ 3a2b 2g2f 8c8d 2f2e 8d8e 2e2d 2c2d 2h2d 8e8f 2d2b+".split()
    [game] = read_games(" ".join(moves).encode())
    want(Analysis(game, 4).phases, ["opening"] * 13 + ["middle"], "phases")


# Openings and castles from books: the side's moves alone, with the other side's rook going to and fro.
BUILT = {
    "四間飛車 美濃囲い": "7g7f 6g6f 2h6h 5i4h 4h3h 3h2h 3i3h 6i5h",
    "三間飛車 片美濃囲い": "7g7f 6g6f 2h7h 5i4h 4h3h 3h2h 3i3h",
    "ゴキゲン中飛車 ": "7g7f 5g5f 2h5h 5f5e",
    "向かい飛車 高美濃囲い": "7g7f 6g6f 8h7g 2h8h 5i4h 4h3h 3h2h 3i3h 4g4f 6i5h 5h4g",
    "袖飛車 ": "3g3f 2h3h",
    "矢倉 金矢倉": "7g7f 7i6h 6h7g 6i7h 5g5f 4i5h 6g6f 5h6g 8h7i 7i4f 5i6h 6h7i 7i8h",
    " 居飛車穴熊": "7g7f 8h7g 5i6h 6h7h 7h8h 9i9h 8h9i 7i8h",
    " 船囲い": "7g7f 5i6h 6h7h 4i5h",
    " 左美濃": "7g7f 5i6h 7i7h 8h7g 6h7i 7i8h",
    " エルモ囲い": "7g7f 5i6h 6h7h 7i6h 6i7i",
    "棒銀 ": "2g2f 2f2e 3i3h 3h2g 2g2f",
}


def names_of_shapes():
    for name, moves in BUILT.items():
        opening, castle = name.split(" ")
        for black in (True, False):
            board, words = Board.of("startpos"), []
            other = ["8b7b", "7b8b"] if black else ["2h3h", "3h2h"]
            for at, word in enumerate(moves.split()):
                mine = word if black else turned_move(word)
                words += [mine, other[at % 2]] if black else [other[at % 2], mine]
            for word in words:
                want(board.is_legal(word), True, f"{name}: {word}")
                board.play(word)
            analysis = Analysis(read_games(" ".join(words).encode())[0], 4)
            found = [shape_of(analysis, black, kind) for kind in ("opening", "castle")]
            want([shape.names[1] if shape else "" for shape in found], [opening, castle], f"{name}, {black}")
    kinds = [shape.kind for shape in shapes()]
    want(min(kinds.count("opening"), kinds.count("castle")) >= 12, True, "a dozen of each")


def turned_move(word):
    """A move on the board, as White makes it."""
    return "".join(str(10 - int(c)) if c.isdigit() else "ihgfedcba"["abcdefghi".index(c)] for c in word)


class Tags(html.parser.HTMLParser):
    """Looks whether each tag is closed, and collects what links lead to."""

    def __init__(self):
        super().__init__()
        self.open, self.links, self.seen = [], [], []

    def handle_starttag(self, tag, attrs):
        self.seen.append(tag)
        self.links += [value for name, value in attrs if name in ("href", "src", "xlink:href")]
        if tag not in ("meta", "br"):
            self.open.append(tag)

    def handle_endtag(self, tag):
        if not self.open or self.open.pop() != tag:
            raise Wrong(f"</{tag}> closes nothing")


# Where a page leads: the positions on an analysis board, and the source of a formula.
LINKS = ("https://lishogi.org/analysis/", "https://lichess.org/page/accuracy")


def want_page(text, marks):
    """Looks whether a page is whole, loads nothing, runs its own script alone, and has so many marks: their boards, and
    the one for stepping."""
    tags = Tags()
    tags.feed(text)
    want(tags.open, [], "tags that are open")
    want((text.count('class="board"'), text.count("<article")), (marks + 1, marks), "boards")
    want([link for link in tags.links if not link.startswith(("#", *LINKS))], [], "links")
    want([tag for tag in ("link", "img", "iframe", "object", "base") if tag in tags.seen], [], "tags that load")
    want([word for word in ("@import", "url(") if word in text], [], "what is loaded")
    with open(os.path.join(EXAMPLES, "shogi_host", "report", "step.js"), encoding="ascii") as file:
        script = file.read()
    want(text.count("<script"), 2, "scripts: the data, and the one that steps")
    want(text.count(f"<script>{script}</script>"), 1, "the script that steps")
    digest = base64.b64encode(hashlib.sha256(script.encode()).digest()).decode()
    want(f"script-src 'sha256-{digest}'" in text and "default-src 'none'" in text, True, "what may run")
    return data_in(text)


def data_in(page):
    """The data of the script that steps."""
    return json.loads(page.split('id="plies">')[1].split("</script>")[0])


def reports_of_a_game():
    record = kif_of(PLAYED).replace("先手：甲", "先手：<甲>")
    with tempfile.TemporaryDirectory() as folder:
        paths = {kind: os.path.join(folder, f"game.{kind}") for kind in ("html", "svg", "kif", "json")}
        words = [word for kind, path in paths.items() for word in (f"--{kind}", path)]
        status, table, told = analysed(record, "--program", PROGRAM, "--jobs", "2", *words)
        want(status, 0, told)
        want(sorted(os.listdir(folder)), sorted(map(os.path.basename, paths.values())), "the files")
        texts = {}
        for kind, path in paths.items():
            with open(path, encoding="utf-8") as file:
                texts[kind] = file.read()
    data = json.loads(texts["json"])
    rows = list(csv.DictReader(io.StringIO(table)))
    want((data["complete"], len(data["plies"]), data["depth"]), (True, len(rows), 4), "the data")
    want(data["evaluation"], "Exchange" if has_exchange() else "Plain", "the evaluation")
    for row, ply in zip(rows, data["plies"]):
        [(kind, value)] = ply["value"].items()
        want((row["value"], row["best"]), (f"{kind} {value}", ply["best"]), "a row and its data")
        want(str(ply.get("loss", "")), row["loss"], "a loss and its data")
    lost = {ply["ply"]: ply["lost"] for ply in data["plies"] if "lost" in ply}
    marks = data["marks"]
    want(marks, sorted(marks, key=lambda ply: (-lost[ply], ply)), "marks, the worst one first")
    slips = [ply for ply in lost if lost[ply] >= 0.16]
    want(len(marks), min(5, sum(side["slips"] for side in data["sides"].values())), "the number of marks")
    want(set(marks) <= set(slips), True, "only slips are marked")
    want([ply for ply in data["plies"] if ply["ply"] in marks and "cause" not in ply], [], "marks without a cause")
    stepped = want_page(texts["html"], len(marks))
    want([ply["sfen"] for ply in stepped["plies"]], [ply["sfen"] for ply in data["plies"]], "the positions to step to")
    want([ply["notes"] for ply in stepped["plies"]], ["", *["a note"] * len(PLAYED)], "the record's comments")
    want("<h1>☗ &lt;甲&gt; – ☖ 乙</h1>" in texts["html"], True, "the players' names")
    want("2020/01/02" in texts["html"] and "broken off" in texts["html"], True, "the date and the end")
    for row, ply in zip(rows, data["plies"]):
        mate = row["loss"].endswith("plies") or row["loss"] == "mate"
        is_dear = row["move"] and row["best"] != row["move"] and (mate or int(row["loss"]) >= 200)
        want(bool(stepped["plies"][ply["ply"]]["better"]) if row["move"] else None, is_dear if row["move"] else None,
             f"ply {ply['ply']}: a better move is named where a pawn was lost")  # fmt: skip
    want_kept(record, texts["kif"])
    points = [int(line.partition("=")[2]) for line in texts["kif"].split("\n") if line.startswith("*#評価値=")]
    worth = [ply["worth"] for ply in data["plies"] if "worth" in ply]
    mates = {True: 30000, False: -30000}
    wanted = [round(value["cp"] / 2) if "cp" in value else mates[value["mate"] > 0] for value in worth]
    want(points, wanted, "values as hundredths of a pawn won")
    picture = xml.etree.ElementTree.fromstring(texts["svg"])
    space = "{http://www.w3.org/2000/svg}"
    [curve] = picture.iter(f"{space}polyline")
    heights = [float(point.split(",")[1]) for point in curve.get("points").split()]
    want(len(heights), len(rows), "a point for each position")
    for height, ply in zip(heights, data["plies"]):
        want(height < heights[0], ply["chance"] > 0.5, "what is good for Black is above")
    texts_of = [text.text for text in picture.iter(f"{space}text")]
    want(sum(text.startswith("ply ") for text in texts_of), len(marks), "the list of the marked moves")


def is_ours(line):
    """Whether a line of a record is one that this script adds."""
    return line.startswith(("**解析 0 深さ ", "*#評価値=", "*best was ")) or " of the moves that lost most" in line or (
        "values in hundredths of a pawn won" in line
    )


def want_kept(record, written):
    """Looks whether a record in KIF is in what was written: all lines but that of its encoding in their order, and
    ours between; and whether it is read as the same game with the same comments."""
    first, *lines = written.split("\n")
    want(first, "#KIF version=2.0 encoding=UTF-8", "the encoding")
    want_among([line for line in record.split("\n") if not line.startswith("#KIF version")], lines)
    [before], [after] = read_games(record.encode()), read_games(written.encode())
    want([move[0::3] for move in after.moves], [move[0::3] for move in before.moves], "moves and times")
    want((after.head, after.end, after.start), (before.head, before.end, before.start), "the head and the end")
    for plies, said in after.comments.items():
        want_among(before.comments.get(plies, []), said)
    want(set(before.comments) <= set(after.comments), True, "comments")


def want_among(theirs, lines):
    """Looks whether the lines are these in their order, and others between that are ours."""
    left = list(theirs)
    for line in lines:
        if left and left[0] == line:
            left.pop(0)
        elif not is_ours(line):
            raise Wrong(f"neither the record's line nor ours: {line!r}; the record's next is {left[:1]}")
    want(left, [], "lines that are lost")


def filled(record):
    """The first game of a record with answers that gain nothing."""
    game = read_games(bytes_of(record))[0]
    analysis = Analysis(game, 4)
    for board in analysis.boards:
        [move] = [move for move in ("1g1f", "1c1d", "1f1e", "1d1e", "9i9h", "9a9b") if board.is_legal(move)][:1]
        analysis.answers.append(Answer(move, None, tuple(Line(depth, 1, Centipawns(0), (move,)) for depth in range(1, 5))))
    return analysis


def records_written_back():
    """Records as other programs write them: all that they say is in what is written."""
    record = COMMENTS["KIF"][0]
    want_kept(record, record_of(filled(record), MADE))
    marked = record.replace("# KIF形式", "#KIF version=2.0 encoding=Shift_JIS\n# KIF形式").encode("cp932")
    want_kept(record, record_of(filled(marked), MADE))
    # Once more over what was written: the values stand there twice, and the player's words once.
    twice = record_of(filled(record_of(filled(record), MADE)), MADE)
    want((twice.count("*一手目"), twice.count("*#評価値=0"), twice.count("encoding=")), (1, 4, 1), "written twice")
    for name in ("KI2", "CSA", "moves"):
        record, comments, times = COMMENTS[name]
        game = read_games(bytes_of(record))[0]
        [again] = read_games(record_of(filled(record), MADE).encode())
        theirs = {plies: [line for line in said if not is_ours(line)] for plies, said in again.comments.items()}
        want({plies: said for plies, said in theirs.items() if said}, comments, f"{name}: comments")
        want([move.text for move in again.moves], [move.text for move in game.moves], f"{name}: moves")
        want([move.seconds for move in again.moves], [time and int(time) for time in times], f"{name}: times")
        for key, value in game.head.items():
            want(again.head.get(key), value, f"{name}: {key}")
    told = record_of(filled(COMMENTS["CSA"][0]), MADE).split("\n")
    want([line for line in told if line.startswith(("持ち時間", "戦型"))], ["持ち時間：00:25+00", "戦型：歩"], "CSA: the head")
    late = record_of(filled("先手：甲\n▲７六歩 △３四歩\nまで2手で中断\n\n変化：2手\n*変化\n△８四歩\n"), MADE)
    want(late.endswith("\nまで2手で中断\n\n変化：2手\n*変化\n△８四歩\n"), True, "KI2: a variation")


# Names, comments, a title and a path that would be markup, script or lines of KIF.
MEAN = "</script><script>alert(1)</script><img src=x onerror=alert(1)>&amp;{name}\u2028先手番"
MEAN_NAME = MEAN.replace("/", ":")


def words_that_stay_words():
    csa = f"N+{MEAN}\nN-{MEAN}\n$EVENT:{MEAN}\n$OPENING:{MEAN}\n'{MEAN}\nPI\n+\n+7776FU\n'{MEAN}\n-3334FU\n%TORYO\n"
    kif = f"手合割：平手\n先手：{MEAN}\n   1 ７六歩(77)\n*{MEAN}\n   2 ３四歩(33)\n   3 {MEAN}\n"
    for record in (csa, kif):
        for made in (MADE, MADE._replace(name=MEAN_NAME, title=MEAN, program=MEAN, language="ja")):
            analysis = filled(record)
            stepped = want_page(page_of(analysis, made), 0)
            want(stepped["plies"][1]["notes"], MEAN.replace("\u2028", " "), "a comment is a text")
            page = page_of(analysis, made)
            want([word for word in ("<img", "alert(1)</script><", "\u2028") if word in page], [], "markup")
            text = xml.etree.ElementTree.tostring(xml.etree.ElementTree.fromstring(picture_of(analysis, made)))
            want(b"<img" in text or b"<script" in text, False, "markup in the picture")
            [again] = read_games(record_of(analysis, made).encode())
            want((again.start, len(again.moves)), (f"sfen {Board.of('startpos').sfen()}", 2), "KIF")
            json.loads(data_of(analysis, made))
    for line in record_of(filled(csa), MADE).split("\n"):
        want("\u2028" in line, False, f"a line that ends for some programs: {line!r}")


def texts_in_both_languages():
    for key, texts in TEXTS.items():
        fields = [sorted(re.findall(r"\{(\w+)", text)) for text in texts]
        want((len(texts), fields[1]), (len(LANGUAGES), fields[0]), f"the fields of {key}")
    page = page_of(filled("7g7f 3c3d"), MADE._replace(language="ja"))
    want('<html lang="ja">' in page and "<h2>全指し手</h2>" in page, True, "a page in Japanese")
    here = dict(os.environ, LANG="ja_JP.UTF-8")
    english = dict(here, LC_ALL="C")
    for language, words, env in [("ja", [], here), ("en", ["--language", "en"], here), ("en", [], english)]:
        with tempfile.TemporaryDirectory() as folder:
            path = os.path.join(folder, "game.html")
            ran = subprocess.run(
                script_of("--program", make_fake(folder), "--depth", "4", "--html", path, *words),
                input=b"7g7f 3c3d\n",
                capture_output=True,
                env=env,
                timeout=300,
                check=False,
            )
            want(ran.returncode, 0, ran.stderr.decode())
            with open(path, encoding="utf-8") as file:
                want(f'<html lang="{language}">' in file.read(), True, f"{words}: {language}")


# A second engine: it says what the words of its answer say, or ends, or says nothing more.
SECOND = """#!{python}
import sys, time
moves = 0
for line in sys.stdin:
    words = line.split()
    if words[0] == "usi":
        print("id name <b>A Second</b>\\nusiok")
    if words[0] == "position":
        moves = len(words) - words.index("moves") - 1 if "moves" in words else 0
    if words[0] == "go":
        {then}
    sys.stdout.flush()
"""
# What it says, what Black's move lost by it, and what is told of it. The values are for the side to move, and a chance of
# winning is 0.9933 at 3,000. A line ends before what is no legal move.
SAID = "print('info depth 9 score cp', {values}[moves], 'pv', {lines}[moves], '\\nbestmove 1g1f')"
SECONDS = [
    (SAID.format(values=[3000, 3000], lines=["G*5b 9a9b", "1c1d"]), {"lost": 0.9866}, ""),
    (SAID.format(values=[0, 0], lines=["G*5b <img>", "1c1d"]), {"lost": 0.0}, ""),
    ("print('bestmove 1g1f')", None, "no score in its answer to go depth 9"),
    ("print('info score cp what pv 1g1f\\nbestmove')", None, "no score in its answer to go depth 9"),
    ("sys.exit(3)", None, "it has ended with status 3"),
    ("time.sleep(600)", None, "no answer within 10 s"),
]


def second_opinions():
    game = f"position sfen {MATE_IN_ONE} moves 5c5b+\n"
    for then, wanted, why in SECONDS:
        with tempfile.TemporaryDirectory() as folder:
            second = os.path.join(folder, "a second")
            paths = [os.path.join(folder, f"game.{kind}") for kind in ("json", "html")]
            with open(second, "w", encoding="ascii") as file:
                file.write(SECOND.format(python=sys.executable, then=then))
            os.chmod(second, 0o755)
            words = ["--program", PROGRAM, "--json", paths[0], "--html", paths[1], "--timeout", "10"]
            asked = ["--second", f"'{second}'", "--second-go", "depth 9"]
            status, table, told = analysed(game, *words, *asked)
            want((status, table), (0, MATE_MISSED), f"{then}: {told}")
            with open(paths[0], encoding="utf-8") as file:
                data = json.load(file)
            with open(paths[1], encoding="utf-8") as file:
                page = file.read()
            want_page(page, 1)
            want(bool(data["second"]), not why, f"{then}: {told}")
            if why:
                last = f"analyse.py: the second engine: {second}: {why}; the report is made without it"
                want((told[-1], data["second"]), (last, None), then)
                continue
            seen = data["plies"][0]["second"]
            want((seen["lost"], seen["line"]), (wanted["lost"], ["G*5b"]), then)
            says = "says so too" if wanted["lost"] else "differs"
            want(f"&lt;b&gt;A Second&lt;/b&gt; {says}" in page, True, f"{then}: what the page says")
    told = analysed(game, "--program", PROGRAM, "--second", "/none/such")[2]
    want("analyse.py: the second engine: " in told[-1] and "No such file" in told[-1], True, told)
    board = Board.of("startpos")
    for replies, view in [
        (["info depth 2 score mate -4 pv 7g7f 3c3d", "bestmove 7g7f"], View((None, -4), ["7g7f", "3c3d"])),
        (["info score cp 5 lowerbound pv 2g2f", "info depth 1 multipv 2 score cp 9 pv 2g2f", "bestmove 2g2f"], None),
        (["bestmove resign"], View((None, 0), [])),
        (["info score cp -31 nodes 5", "bestmove 2g2f"], View((-31, None), [])),
    ]:
        want(view_of(board, replies), view, f"{replies}")


def depths_and_jobs_of_their_own():
    """Without a depth it is 7, or 6 from 200 plies on, or the deepest that the host offers; the slip is asked for."""
    with tempfile.TemporaryDirectory() as folder:
        path, less = os.path.join(folder, "game.json"), os.path.join(folder, "less")
        os.mkdir(less)
        fake = make_fake(folder)
        long = " ".join(["9i9h", "9a9b", "9h9i", "9b9a"] * 50)
        for game, words, wanted in [
            ("7g7f 3c3d", [], (7, 0.16)),
            (long, ["--slip", "25"], (6, 0.25)),
            ("7g7f 3c3d", ["--program", make_fake(less, greatest=5)], (5, 0.16)),
        ]:
            ran = subprocess.run(
                script_of("--program", fake, "--json", path, *words),
                input=game.encode(),
                capture_output=True,
                timeout=300,
                check=False,
            )
            want(ran.returncode, 0, ran.stderr.decode())
            with open(path, encoding="utf-8") as file:
                data = json.load(file)
            want((data["depth"], data["slip"], data["marks"]), (*wanted, []), f"{words}")
    for words, why in [
        (["--slip", "0"], "--slip is from 1 to 100 percent"),
        (["--jobs", "65"], "--game counts from 1, and --jobs is from 1 to 64"),
    ]:
        told = analysed("7g7f", *words)
        want((told[0], why in told[2][-1]), (2, True), f"{words}")


# A slip of each kind, worked out by hand: the position, the move, and why it was a slip. A rook is worth 1,000, a gold
# and a promoted pawn 600, a pawn 100.
SLIPS = [
    # White's rook attacks the gold on 5e, which nothing guards. Black passes by.
    ("4k4/4r4/9/9/4G4/9/9/9/K8 b - 1", "9i9h", "overlooked"),
    # The gold steps into the rook's way.
    ("4k4/4r4/9/9/3G5/9/9/9/K8 b - 1", "6e5e", "left hanging"),
    # A rook hangs, and is not taken.
    ("4k4/9/9/9/4r4/4P4/9/9/K8 b - 1", "9i9h", "missed a gain"),
    ("4k4/9/4P4/9/9/9/9/9/9 b G 1", "5c5b+", "missed a mate"),
]


def causes_of_slips():
    client = Engine.popen(command_of(PROGRAM, 4))
    if has_exchange():
        client.configure({"Eval": "Exchange"})
    for sfen, move, cause in SLIPS:
        [game] = read_games(f"position sfen {sfen} moves {move}\n".encode())
        analysis = Analysis(game, 4)
        texts = [game.start, f"{game.start} moves {move}"]
        analysis.answers = [client.analyse(text, 4) for text in texts]
        threat = look_at(client, analysis.boards[0], move, "Exchange")
        analysis.threats[0] = threat
        want((analysis.slips(), cause_of(analysis, 0)), ([0], cause), sfen)
        if cause == "overlooked":
            seen = threat.line[0], threat.gain, threat.remains
            want(seen, ("5b5e", 1500, True), "a gold that hangs, and a promotion")
    # In check nobody threatens: the next move would take the king.
    want(look_at(client, Board.of("sfen 4k4/4r4/9/9/9/9/9/9/4K4 b - 1"), "5i6i", "Exchange"), Threat(True), "a check")
    # A rook and a promoted pawn against a pawn in hand; in hand Hand counts a tenth more.
    board = Board.of("sfen 4k4/9/4+P4/9/9/9/9/9/4KR3 b p 1")
    want([balance_of(board, True, name) for name in ("Exchange", "Hand")], [1500, 1490], "material")
    client.close()


def pages_with_international_pieces():
    with tempfile.TemporaryDirectory() as folder:
        path = os.path.join(folder, "game.html")
        line = f"position sfen {MATE_IN_ONE} moves 5c5b+\n"
        words = ["--pieces", "international", "--html", path, "--kif", f"{path}.kif"]
        status, _, told = analysed(line, "--program", PROGRAM, *words)
        want(status, 0, told)
        with open(path, encoding="utf-8") as file:
            page = file.read()
        with open(f"{path}.kif", "rb") as file:
            [game] = read_games(file.read())
    want_page(page, 1)
    want("1. Ply 1: ☗P-5b+ lost 30 %, missed a mate" in page, True, "the mark")
    want("<strong>Missed a mate in 1 ply</strong>" in page, True, "its cause")
    want("https://lishogi.org/analysis/standard/4k4/9/4P4/9/9/9/9/9/9_b_G_1" in page, True, "the link")
    want((game.start, [move.text for move in game.moves]), (f"sfen {MATE_IN_ONE}", ["5c5b+"]), "the record")


def programs_of_other_kinds():
    """An older program, one that searches to depth 4 at most, and one whose evaluation is not there."""
    game = "7g7f 3c3d"
    with tempfile.TemporaryDirectory() as folder:
        fake = make_fake(folder, more="", refuses=True)
        status, _, told = analysed(game, "--program", fake)
        why = f"analyse.py: evaluation Plain, as {fake} does not offer Exchange"
        want((status, told[0]), (0, why), "an older one")
        no_mates = f"analyse.py: missed mates are left out: {fake}: it has no command `mate`"
        want(analysed(game, "--program", fake, "--eval", "hand")[2], [no_mates], "Hand is chosen")
        status, table, told = analysed(game, "--program", fake, "--eval", "Exchange")
        slip = "an option with a value that it does not have: Eval is Plain or Hand, and not 'Exchange'"
        want((status, table, told), (2, "", [f"analyse.py: {fake}: {slip}"]), "Exchange is not there")
        fake = make_fake(folder, greatest=4)
        status, table, told = analysed(game, "--program", fake, depth="5")
        why = "a depth is a whole number from 1 to 4, and not 5"
        want((status, table, told), (2, "", [f"analyse.py: {fake}: {why}"]), "too deep")


def what_is_done_is_kept():
    """Ctrl-C, a program that dies, and one that does not answer: the rows and the reports of what is done."""
    game, names = " ".join(PLAYED[:6]), ("game.html", "game.json")
    for then, words, status, why in [
        ("time.sleep(600)", [], 130, "Ctrl-C"),
        ("sys.exit(3)", [], 2, "{fake}: it has ended with status 3"),
        ("time.sleep(600)", ["--timeout", "10"], 2, "{fake}: no answer within 10 s"),
    ]:
        with tempfile.TemporaryDirectory() as folder:
            fake = make_fake(folder, most=4, then=then)
            paths = [os.path.join(folder, name) for name in names]
            words = ["--program", fake, "--jobs", "1", "--html", paths[0], "--json", paths[1], "--depth", "4", *words]
            with subprocess.Popen(
                script_of(*words),
                stdin=subprocess.PIPE,
                stdout=subprocess.PIPE,
                stderr=subprocess.PIPE,
                # Ctrl-C is heard also where this script runs in the background.
                preexec_fn=lambda: signal.signal(signal.SIGINT, signal.SIG_DFL),
            ) as running:
                running.stdin.write(game.encode())
                running.stdin.close()
                rows = [running.stdout.readline() for _ in range(4)]
                if why == "Ctrl-C":
                    running.send_signal(signal.SIGINT)
                rest, told = running.stdout.read(), running.stderr.read().decode()
                want(running.wait(60), status, told)
            last = f"analyse.py: {why.format(fake=fake)}; written is what is done, 3 of 6 moves"
            want(told.splitlines()[-1], last, "what is told")
            want((rest, [row.split(b",")[0] for row in rows]), (b"", [b"ply", b"1", b"2", b"3"]), "the table")
            with open(paths[0], encoding="utf-8") as file:
                want_page(file.read(), 0)
            with open(paths[1], encoding="utf-8") as file:
                data = json.load(file)
            want((data["complete"], len(data["plies"])), (False, 3), "the data")


def host_that_is_replaced():
    """Another host at the path that lacks what was asked: it is named, and what is done is written."""
    game = f"position startpos moves {' '.join(PLAYED)}\n"
    with tempfile.TemporaryDirectory() as folder:
        path, report = os.path.join(folder, "socket"), os.path.join(folder, "game.json")
        for words, why in [
            ([], "an option with a value that it does not have: Eval is Plain or Hand, and not 'Exchange'"),
            (["--eval", "exchange", "--max-depth", "3"], "a depth is a whole number from 1 to 3, and not 4"),
        ]:
            serve = [PROGRAM, "serve", "--socket", path]
            first = subprocess.Popen([*serve, "--eval", "exchange", "--lines", "2"])
            with subprocess.Popen(
                script_of("--socket", path, "--depth", "4", "--jobs", "2", "--json", report),
                stdin=subprocess.PIPE,
                stdout=subprocess.PIPE,
                stderr=subprocess.PIPE,
            ) as running:
                running.stdin.write(game.encode())
                running.stdin.close()
                rows = [running.stdout.readline() for _ in range(4)]
                first.terminate()
                first.wait()
                os.unlink(path)
                second = subprocess.Popen([*serve, *words])
                rest, told = running.stdout.read(), running.stderr.read().decode()
                status = running.wait(60)
            second.terminate()
            second.wait()
            os.unlink(path)
            done = len(rows) - 1 + len(rest.splitlines())
            last = f"analyse.py: {path}: {why}; written is what is done, {done} of {len(PLAYED)} moves"
            want((status, told.splitlines()[-1]), (2, last), "what is told")
            with open(report, encoding="utf-8") as file:
                data = json.load(file)
            want((data["complete"], len(data["plies"]), data["evaluation"]), (False, done, "Exchange"), "the data")


def names_in_other_encodings():
    """A name or a title that is no UTF-8 is shown, and the report is written."""
    kinds = ("html", "svg", "kif", "json")
    with tempfile.TemporaryDirectory() as folder:
        for name, shown in [
            ("名人戦.kif".encode("cp932"), "名人戦.kif"),
            ("名人戦.kif".encode("euc_jp"), "名人戦.kif"),
            ("名人戦.kif".encode(), "名人戦.kif"),
            (b"a \x81\xff.kif", "a \\x81\\xff.kif"),
        ]:
            path = os.path.join(folder.encode(), name)
            with open(path, "wb") as file:
                file.write(b"7g7f 3c3d\n")
            for title in (None, name):
                files = [os.path.join(folder, f"game.{kind}") for kind in kinds]
                words = [word for kind, file in zip(kinds, files) for word in (f"--{kind}", file)]
                words += [] if title is None else ["--title", title]
                status, table, told = analysed("", "--program", PROGRAM, *words, path)
                want((status, len(table.splitlines())), (0, 4), f"{name}: {told}")
                with open(files[0], encoding="utf-8") as file:
                    want(f"<h1>{shown}</h1>" in file.read(), True, f"{name}: the page")
                with open(files[3], encoding="utf-8") as file:
                    data = json.load(file)
                want((data["record"], data["title"]), (shown, shown), f"{name}: the data")
                for file in files:
                    os.unlink(file)
            with open(path, "wb") as file:
                file.write(b"7g7f 7g7f\n")
            told = analysed("", "--program", PROGRAM, path)[2]
            want(told, [f"analyse.py: {folder}/{shown}:1:6: illegal move 7g7f"], f"{name}: a refusal")


def report_that_cannot_be_written():
    """It is told, and the others are written."""
    with tempfile.TemporaryDirectory() as folder:
        path = os.path.join(folder, "game.json")
        words = ["--program", PROGRAM, "--html", "/dev/full", "--json", path]
        status, table, told = analysed("7g7f 3c3d\n", *words)
        want((status, len(table.splitlines())), (2, 4), f"{told}")
        want("No space left on device" in told[-1], True, told[-1])
        with open(path, encoding="utf-8") as file:
            want(json.load(file)["complete"], True, "the data")


def refusals_leave_no_files():
    with tempfile.TemporaryDirectory() as folder:
        path = os.path.join(folder, "game.html")
        missing = os.path.join(folder, "no such program")
        for record, words, status, why in [
            ("7g7f", ["--program", missing], 2, "No such file"),
            ("7g7f", ["--program", PROGRAM, "--html", os.path.join(folder, "none", "x")], 2, "No such file"),
            ("7g7f", ["--program", PROGRAM, "--html", folder], 2, "is a folder"),
            ("", ["--program", PROGRAM, os.path.join(folder, "no such game")], 2, "No such file"),
            ("7g7f 7g7f", ["--program", PROGRAM], 1, "1:6: illegal move 7g7f"),
        ]:
            seen = analysed(record, "--html", path, *words)
            want((seen[0], seen[1], why in seen[2][-1]), (status, "", True), f"{words}: {seen}")
            want([name for name in os.listdir(folder) if name.startswith("game")], [], "files that are left")
        for depth in ("3", "2", "1"):
            status, table, told = analysed("7g7f", "--program", PROGRAM, depth=depth)
            why = "analyse.py: error: the depth is at least 4, so that two depths say something of a loss"
            want((status, table, told[-1]), (2, "", why), f"depth {depth}")


def records_that_are_no_records():
    for record, why in HOSTILE:
        seen = analysed(record, "--program", PROGRAM)
        want(seen, (1, "", [f"analyse.py: <stdin>:{why}"]), repr(record[:40]))


def records_that_the_program_refuses():
    for record, why in UNREADABLE:
        if "illegal move" in why or "bad position" in why:
            seen = analysed(record, "--program", PROGRAM)
            want((seen[0], seen[1], seen[2][-1]), (1, "", f"analyse.py: <stdin>:{why}"), repr(record))


CHECKS = [
    rows_worked_out_by_another_program,
    mates_of_a_game,
    missed_mates,
    tables_of_other_forms,
    losses_on_which_depths_agree,
    what_is_marked,
    notations_of_moves,
    accuracy_by_the_formula,
    phases_of_a_game,
    names_of_shapes,
    causes_of_slips,
    second_opinions,
    depths_and_jobs_of_their_own,
    records_written_back,
    words_that_stay_words,
    texts_in_both_languages,
    reports_of_a_game,
    pages_with_international_pieces,
    programs_of_other_kinds,
    what_is_done_is_kept,
    host_that_is_replaced,
    names_in_other_encodings,
    report_that_cannot_be_written,
    refusals_leave_no_files,
    records_that_are_no_records,
    records_that_the_program_refuses,
]
