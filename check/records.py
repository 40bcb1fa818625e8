"""One small record for each form that share/examples/shogi_records reads, with what has to be read there, and the
records that have to be refused, each with line, column and cause; and the checks that go through them."""

import os
import sys
import time

from checks import TOP, Wrong, want
from written import csa_of, ki2_of, kif_of

sys.path.insert(0, os.path.join(TOP, "share", "examples"))

from shogi_host.records import Unreadable, read_games  # noqa: E402
from shogi_host.records.encoding import text_of_name  # noqa: E402

OPENING = "lnsgkgsnl/1r5b1/ppppppppp/9/9/9/PPPPPPPPP/1B5R1/LNSGKGSNL b - 1"
BELOW = "ppppppppp/9/9/9/PPPPPPPPP/1B5R1/LNSGKGSNL"
IMPOSSIBLE = "9/9/9/9/9/9/9/9/9 b 19P 1"

DIAGRAM = """後手の持駒：金　歩十二
  ９ ８ ７ ６ ５ ４ ３ ２ １
+---------------------------+
| ・ ・ ・ ・v玉 ・ ・ ・ ・|一
| ・ ・ ・ ・ ・ ・ ・ ・ ・|二
| ・ ・ ・ ・ 全 ・ ・ ・ ・|三
| ・ ・ ・ ・ ・ ・ ・ ・ ・|四
| ・ ・ ・ ・ ・ ・ ・ ・ ・|五
| ・ ・ ・ ・ ・ ・ ・ ・ ・|六
| ・ ・ ・ ・ ・ ・ ・ ・ ・|七
| ・ ・ ・ ・ ・ ・ ・ ・ ・|八
| ・ ・ ・ ・ 玉 ・ ・ ・ ・|九
+---------------------------+
先手の持駒：なし
"""
SHORT_DIAGRAM = "| ・ ・ ・ ・v玉 ・ ・ ・ ・|一\n先手の持ち駒：金\n   1 ５二金打\n"
RANKS = "".join(f"P{rank}{' * ' * 9}\n" for rank in range(4, 9))
CSA_PIECES = f"""P1 *  *  *  * -OU *  *  *  *{" "}
P2{" * " * 9}
P3 *  *  *  * +NG *  *  *  *{" "}
{RANKS}P9 *  *  *  * +OU *  *  *  *{" "}
P-00KI
+
+5352NG
"""
CSA_TWO = """V2.2
N+Kuro
N-Shiro
$EVENT:Spring
PI
+
+7776FU
T60
-3334FU,T90
%TORYO
/
PI
+
+2726FU
%UCHIKIRI
"""
LOG = """12:00:01 > usi
12:00:01 < id name An Engine
12:00:02 > isready
12:00:03 > position startpos moves 7g7f
12:00:03 > go infinite
12:00:03 < info depth 1 score cp 0 pv 3c3d
12:00:04 > position startpos moves 7g7f 3c3d 2g2f
12:00:05 > position startpos moves 7g7f 3c3d
12:00:06 > position startpos moves 2g2f
"""
KIF_OF_TODAY = """# ---- Kifu for Windows ----
開始日時：2020/01/02
棋戦：春
手合割：平手　　
先手：甲
後手：乙
手数----指手---------消費時間--
   1 ７六歩(77)   ( 0:01/00:00:01)
*a note
   2 ３四歩(33)   ( 0:01/00:00:01)
   3 ２二角成る(88)   ( 0:01/00:00:02)+
   4 同　銀(31)   ( 0:01/00:00:02)
   5 投了
まで4手で後手の勝ち

変化：3手
   3 ６六歩(67)

変化：2手
   2 ８四歩(83)
"""
FIRST_FOUR = ["7g7f", "3c3d", "8h2b+", "3a2b"]
KI2 = """先手：甲
後手：乙
手合割：平手

▲７六歩 △３四歩 ▲２二角成 △同　銀
▲４五角 △６五角
▲３四角
まで7手で中断
"""
# Golds on 4b and 6b, silvers on 3d and 5d, dragons on 2h and 8h: each way of KI2 is needed once.
WAYS_HEAD = """後手の持駒：なし
| ・ ・ ・ ・ ・ ・ ・ ・v玉|一
| ・ ・ ・ 金 ・ 金 ・ ・ ・|二
| ・ ・ ・ ・ ・ ・ ・ ・ ・|三
| ・ ・ ・ 銀 ・ 銀 ・ ・ ・|四
| ・ ・ ・ ・ 金 ・ ・ ・ ・|五
| ・ ・ ・ ・ ・ ・ ・ ・ ・|六
| ・ ・ ・ ・ ・ ・ ・ ・ ・|七
| ・ 龍 ・ ・ ・ ・ ・ 龍 ・|八
| ・ ・ ・ ・ ・ ・ ・ ・ 玉|九
先手の持駒：金　歩
"""
WAYS = [
    ("▲５二金右", "4b5b"),
    ("▲５二金左", "6b5b"),
    ("▲５二金打", "G*5b"),
    ("▲５三銀右成", "4d5c+"),
    ("▲５三銀左不成", "6d5c"),
    ("▲５三銀右生", "4d5c"),
    ("▲５四金直", "5e5d"),
    ("▲６三銀上", "6d6c"),
    ("▲５八龍右", "2h5h"),
    ("▲５八龍左", "8h5h"),
    ("▲８二龍", "8h8b"),
    ("▲２三歩", "P*2c"),
]

# Each with the SFEN where it begins, its moves, the word of its end, and how its notes begin.
FORMS = {
    "moves": ("7g7f 3c3d\n2g2f\n", "startpos", ["7g7f", "3c3d", "2g2f"], "", []),
    "moves, resigned": ("7g7f 3c3d resign\n", "startpos", ["7g7f", "3c3d"], "resign", []),
    "a position line, won": ("position startpos moves 7g7f win\n", "startpos", ["7g7f"], "win", []),
    "a position line without moves": ("position startpos\n", "startpos", [], "", []),
    "an SFEN, then moves": (f"{OPENING}\n7g7f\n3c3d\n", f"sfen {OPENING}", ["7g7f", "3c3d"], "", []),
    "an SFEN and moves": (f"{OPENING[:-2]} moves 7g7f\n", f"sfen {OPENING[:-2]}", ["7g7f"], "", []),
    "sfen and moves": (f"sfen {OPENING} moves 7g7f\n", f"sfen {OPENING}", ["7g7f"], "", []),
    "KIF": (KIF_OF_TODAY, f"sfen {OPENING}", FIRST_FOUR, "投了", ["16:1: left out: 2 variations"]),
    "KIF with marks": (
        "１ ▲７六歩(77)\n２ △３四歩(33)\n3 ☗２六歩(27)\n4 パス\n",
        f"sfen {OPENING}",
        ["7g7f", "3c3d", "2g2f"],
        "パス",
        ["4:3: the game ends by a word that is not known: パス"],
    ),
    "KIF with moves behind its end": (
        "   1 ７六歩(77)\n   2 中断\n   3 ２六歩(27)\n   4 ８四歩(83)\nまで1手で中断\n",
        f"sfen {OPENING}",
        ["7g7f"],
        "中断",
        ["2:6: left out: 2 moves behind the end of the game, 中断"],
    ),
    "KIF without the squares that pieces leave": (
        "手合割：平手\n   1 ７六歩\n   2 ３四歩\n   3 ２二角成\n   4 同銀\n",
        f"sfen {OPENING}",
        FIRST_FOUR,
        "",
        [],
    ),
    "KIF with a diagram": (
        DIAGRAM + "先手番\n   1 ５二成銀(53)\n",
        "sfen 4k4/9/4+S4/9/9/9/9/9/4K4 b g12p 1",
        ["5c5b"],
        "",
        [],
    ),
    "a diagram alone, White's turn": (
        DIAGRAM + "手番：後手\n",
        "sfen 4k4/9/4+S4/9/9/9/9/9/4K4 w g12p 1",
        [],
        "",
        [],
    ),
    "a piece in hand beside the board": (
        "手合割：平手\n先手の持ち駒：金\n   1 ５五金打\n",
        f"sfen {OPENING.replace('b -', 'b G')}",
        ["G*5e"],
        "",
        [],
    ),
    "KI2": (KI2, f"sfen {OPENING}", [*FIRST_FOUR, "B*4e", "B*6e", "4e3d"], "中断", []),
    "CSA": (
        "V3.0\n'CSA encoding=UTF-8\nN+甲\n$START_TIME:2020/01/02\nPI\n+\n+7776FU\nT1.5\n-3334FU\n%TIME_UP\n",
        f"sfen {OPENING}",
        ["7g7f", "3c3d"],
        "TIME_UP",
        [],
    ),
    "CSA with pieces taken away": (
        "PI82HI22KA\n-\n-4132KI\n",
        f"sfen lnsgkgsnl/9/{BELOW} w - 1",
        ["4a3b"],
        "",
        [],
    ),
    "CSA with ranks": (CSA_PIECES, "sfen 4k4/9/4+S4/9/9/9/9/9/4K4 b g 1", ["5c5b"], "", []),
    "CSA with all that are left": (
        "P-51OU\nP+53GI\nP+00AL\n+\n+0052KI\n",
        "sfen 4k4/9/4S4/9/9/9/9/9/9 b 2R2B4G3S4N4L18P 1",
        ["G*5b"],
        "",
        [],
    ),
}
# Records of several games: the moves of each.
SEVERAL = {
    "games one a line": ("7g7f 3c3d\n7g7f 8c8d 2g2f resign\n", [["7g7f", "3c3d"], ["7g7f", "8c8d", "2g2f"]]),
    "position lines": ("position startpos moves 7g7f\nposition startpos moves 2g2f\n", [["7g7f"], ["2g2f"]]),
    "a log": (LOG, [["7g7f", "3c3d", "2g2f"], ["2g2f"]]),
    "CSA": (CSA_TWO, [["7g7f", "3c3d"], ["2g2f"]]),
}
# The names that Kifu for Windows and others have for handicaps, with White's two ranks.
HANDICAPS = {
    "香落ち": "lnsgkgsn1/1r5b1",
    "右香落ち": "1nsgkgsnl/1r5b1",
    "角落ち": "lnsgkgsnl/1r7",
    "飛車落ち": "lnsgkgsnl/7b1",
    "飛香落ち": "lnsgkgsn1/7b1",
    "二枚落ち": "lnsgkgsnl/9",
    "三枚落ち": "lnsgkgsn1/9",
    "四枚落ち": "1nsgkgsn1/9",
    "五枚落ち": "2sgkgsn1/9",
    "左五枚落ち": "1nsgkgs2/9",
    "右五枚落ち": "2sgkgsn1/9",
    "六枚落ち": "2sgkgs2/9",
    "左七枚落ち": "2sgkg3/9",
    "右七枚落ち": "3gkgs2/9",
    "八枚落ち": "3gkg3/9",
    "十枚落ち": "4k4/9",
    "トンボ": "4k4/1r5b1",
}
BARE = "4k4/9/9/9/9/9/PPPPPPPPP/1B5R1/LNSGKGSNL w"
# Words by which games end: known ones, and one that is not.
ENDS = (
    "投了 中断 千日手 持将棋 詰み 切れ負け 反則勝ち 反則負け 時間切れ 反則行為 入玉宣言 入玉勝ち 勝ち宣言 トライ 引き分け 接続切れ "
    "タイムアップ TIME_UP 不戦敗 封じ手"
).split()

# The first 60 plies of the ninth game of bench/games.txt.
with open(os.path.join(TOP, "bench", "games.txt"), encoding="ascii") as games:
    PLAYED = games.read().splitlines()[8].split()[:60]

CSA_BEGUN = "V2.2\nPI\n+\n"
# Comments and times as programs write them: Kifu for Windows (bookmarks, and a comment behind the end), ShogiGUI and
# ShogiHome (their values), a KI2 of a magazine, floodgate, CSA 3 with fractions of a second, and a file of moves.
SAID_IN_KIF = """# KIF形式棋譜ファイル Generated by Kifu for Windows V7
開始日時：2021/05/02 15:04:12
持ち時間：各4時間
手合割：平手
先手：甲
後手：乙
*棋戦詳細：第1期
手数----指手---------消費時間--
*始まり
   1 ７六歩(77)   ( 0:16/00:00:16)
*一手目
&しおり
   2 ３四歩(33)   ( 1:02:03/01:02:03)
**解析 0 深さ 10 評価値 35 読み筋 ▲２六歩(27)
*#評価値=35
   3 投了         ( 0:01/00:00:17)
*終わり
まで2手で後手の勝ち

変化：2手
   2 ８四歩(83)
*変化の中
"""
SAID_IN_KI2 = """先手：甲
*頭
▲７六歩 △３四歩
*二手目まで
&しおり
▲２六歩
まで3手で先手の勝ち
"""
SAID_IN_CSA = """'CSA encoding=UTF-8
V3.0
N+甲
'始まり
$TIME_LIMIT:00:25+00
$OPENING:歩
$NOTE:x
PI
+
+7776FU
'** 30 -3334FU
T12
-3334FU,T10.5
'*二手目
%TORYO,T30
'終わり
"""
COMMENTS = {
    "KIF": (
        SAID_IN_KIF,
        {
            0: ["*棋戦詳細：第1期", "*始まり"],
            1: ["*一手目", "&しおり"],
            2: ["**解析 0 深さ 10 評価値 35 読み筋 ▲２六歩(27)", "*#評価値=35", "*終わり"],
        },
        [16, 3723],
    ),
    "KI2": (SAID_IN_KI2, {0: ["*頭"], 2: ["*二手目まで", "&しおり"]}, [None] * 3),
    "CSA": (
        SAID_IN_CSA,
        {0: ["*始まり", "*$NOTE:x"], 1: ["** 30 -3334FU"], 2: ["*二手目", "*終わり"]},
        [12, 10.5],
    ),
    "moves": ("# one\n7g7f\n# two\n3c3d 2g2f\n#three\n", {0: ["*one"], 1: ["*two"], 3: ["*three"]}, [None] * 3),
}
# What is no record: too long, binary, without an end; and a game without one.
SHUFFLE = "9i9h 1a1b 9h9i 1b1a "
HOSTILE = [
    (b"7g7f " * 2_000_000, "1:1: a record of more than 4,000,000 bytes"),
    (b"7" * 3_000_000, "1:1: a line of more than 100,000 letters"),
    (b"7g7f 3c3d\n7g7f\0\n", "2:5: no text: the letter U+0000"),
    (b"\x7fELF\x02\x01\xff\xff\0" * 1000, "1:9: no text: the letter U+0000"),
    ("7g7f 3c3d\n" + (SHUFFLE * 10 + "\n") * 300, "251:191: a game of more than 10,000 moves"),
]
UNREADABLE = [
    ("", "1:1: an empty record"),
    ("# a note\n  Once upon a time\n", "2:3: neither USI's moves nor KIF nor KI2 nor CSA"),
    (b"7g7f 3c3d\n\x81\xff", "2:1: neither UTF-8 nor UTF-16 nor Shift-JIS nor EUC-JP"),
    (b"#KIF version=2.0 encoding=UTF-8\n1 \x82\xa0\n", "2:3: the record says that it is UTF-8, and is not"),
    ("position 7g7f\n", "1:10: neither startpos nor sfen after position"),
    ("7g7f 3c3d\n8h2b+ 3a2z\n", "2:7: no move in USI's words: 3a2z"),
    ("7g7f resign 3c3d\n", "1:6: no move in USI's words: resign"),
    ("7g7f 3c3d\n8h2b+  7c7d\n2b2a 2a2b\n", "3:6: illegal move 2a2b"),
    (f"position sfen {IMPOSSIBLE} moves 1a1b\n", f"1:10: bad position 4: sfen {IMPOSSIBLE}"),
    ("手合割：平手\n   1 ７六歩(77)\n   2 ３四歩(43)\n", "3:6: illegal move 4c3d"),
    ("手合割：平手\n   1 ７六歩(77)\n   2 ３四歩(34)\n", "3:6: White has no piece on 3d"),
    ("手合割：平手\n   1 ７六銀(77)\n", "2:6: the piece on 7g is P, and no 銀"),
    ("手合割：平手\n   1 ７六歩(77)\n   3 ３四歩(33)\n", "3:1: move 3, where 2 is the next"),
    ("手合割：平手\n   1 ７六歩\n   2 △５五歩\n", "3:6: no 歩 of White's can go to 5e"),
    ("手合割：平手\n   1 ５八金\n", "2:6: more than one 金 of Black's can go to 5h"),
    ("手合割：平手\n   1 △３四歩(33)\n", "2:6: it is Black's turn"),
    ("手合割：平手\n   1 同　歩(77)\n", "2:6: no move before it that ends on the same square"),
    (
        "１ ▲７六歩(77)\n2 パス\n3 ▲２六歩(27)\n",
        "2:3: a pass, パス, with moves behind it: the rules have no pass",
    ),
    ("▲７六歩 △パス ▲２六歩\n", "1:6: a pass, パス, with moves behind it: the rules have no pass"),
    ("手合割：平手\n   1 ７六\n", "2:6: no move in KIF's words: ７六"),
    ("手合割：平手\n   1 ５五角打\n", "2:6: Black has no B in hand"),
    ("手合割：平手\n   1 ７六歩(77)\n７六歩\n", "3:1: no move of KIF"),
    ("手合割：五十枚落ち\n", "1:1: a handicap that is not known: 五十枚落ち"),
    ("手合割：その他\n   1 ７六歩(77)\n", "2:1: a first position of its own, その他, without a board"),
    ("手番：誰か\n", "1:1: a turn that is not known: 誰か"),
    ("持駒：金二\n", "1:1: a line of the head that is not known and holds pieces: 持駒"),
    ("先手の駒台：歩\n", "1:1: a line of the head that is not known and holds pieces: 先手の駒台"),
    ("先手の持駒：金玉\n", "1:1: no pieces in hand: 金玉"),
    (SHORT_DIAGRAM, "3:1: a board of 1 ranks"),
    ("▲７六歩 △３四歩 ▲５五角打\n", "1:11: Black has no B in hand"),
    ("▲７六歩 △３四歩 △８四歩\n", "1:11: it is Black's turn"),
    (f"{CSA_BEGUN}+7776FU,T1,-3334FV\n", "4:12: no piece of CSA: FV"),
    (f"{CSA_BEGUN}+7776FU\n+2726FU\n", "5:1: it is White's turn"),
    (f"{CSA_BEGUN}+7775FU\n", "4:1: illegal move 7g7e"),
    (f"{CSA_BEGUN}+7776KI\n", "4:1: the piece on 7g is P, and no KI"),
    (f"{CSA_BEGUN}+776FU\n", "4:1: no move in CSA's words: +776FU"),
    ("P+00FU00OU\n+\n", "1:1: no piece for a hand: OU"),
    ("PI\nP-00TO\n+\n", "2:1: no piece for a hand: TO"),
    ("P+55AL\n+\n", "1:1: all that are left go to the hand, as 00AL, and not 55AL"),
    ("PI55HI\n+\n", "1:1: no HI stands on 5e that could be taken away"),
    ("V2.2\nPI\n", "3:1: the record ends before it says whose turn it is, + or -"),
]


def bytes_of(record):
    """A record as bytes, in UTF-8 where it is a text."""
    return record if isinstance(record, bytes) else record.encode()


def moves_of(record):
    """The moves of each game of a record."""
    return [[move.text for move in game.moves] for game in read_games(bytes_of(record))]


def each_form_of_record():
    for name, (record, start, moves, end, notes) in FORMS.items():
        [game] = read_games(bytes_of(record))
        seen = game.start, [move.text for move in game.moves], game.end, list(map(str, game.notes))
        want(seen, (start, moves, end, notes), name)
    for name, (record, moves) in SEVERAL.items():
        want(moves_of(record), moves, name)


def heads_of_records():
    [game] = read_games(KIF_OF_TODAY.encode())
    told = {"black": "甲", "white": "乙", "event": "春", "date": "2020/01/02", "handicap": "平手"}
    want(game.head, told, "KIF")
    for line in ("開始日時：2021/05/02 15:04:12", "開始日時:2021/05/02 15:04:12", "開始日時： 2021/05/02 15:04:12　"):
        [game] = read_games(f"手合割：平手\n{line}\n   1 ７六歩(77)\n".encode())
        want(game.head["date"], "2021/05/02 15:04:12", line)
    [game] = read_games("手合割：平手\n先手：甲:乙：丙\n".encode())
    want(game.head["black"], "甲:乙：丙", "a name with both colons")
    first, second = read_games(CSA_TWO.encode())
    want(first.head, {"black": "Kuro", "white": "Shiro", "event": "Spring"}, "CSA")
    want(list(map(str, second.notes)), ["15:1: the game ends by a word that is not known: %UCHIKIRI"], "CSA")


def letters_that_are_no_text():
    """Controls, and ends of lines that are none of a record, are blanks, so that no name brings a line of its own."""
    for letter in "\x08\x0b\x0c\x1b\x1c\x7f\x85\u2028\u2029\ufffe\uffff":
        told = f"先手：甲{letter}後手：丙\n後手：乙\n手合割：平手\n   1 ７六歩(77)\n"
        [game] = read_games(told.encode())
        names = {"black": "甲 後手：丙", "white": "乙", "handicap": "平手"}
        want((game.head, len(game.moves)), (names, 1), repr(letter))
        want(text_of_name(f"a{letter}b"), "a b", repr(letter))


def many_games_one_a_line():
    """Are read in a time that grows with their number alone, and not with its square."""
    count, began = 40_000, time.process_time()
    games = read_games(b"7g7f 3c3d\n2g2f 8c8d resign\n" * (count // 2))
    want((len(games), [move.text for move in games[-1].moves]), (count, ["2g2f", "8c8d"]), "the games")
    took = time.process_time() - began
    want(took < 20, True, f"{count} games took {took:.1f} s")


def handicaps_of_records():
    for name, ranks in HANDICAPS.items():
        for written in (name, name.removesuffix("ち")):
            [game] = read_games(f"手合割：{written}　\n   1 ５二玉(51)\n".encode())
            want(game.start, f"sfen {ranks}/{BELOW} w - 1", written)
    for name, hand in [("裸玉", "-"), ("歩三兵", "3p")]:
        want(read_games(f"手合割：{name}\n".encode())[0].start, f"sfen {BARE} {hand} 1", name)


def ends_of_records():
    for word in ENDS:
        [game] = read_games(f"   1 ７六歩(77)\n   2 {word}   ( 0:01/00:00:01)\n".encode())
        want((game.end, len(game.moves)), (word, 1), word)
        want(len(game.notes), int(word == "トライ"), f"{word} is known")


def ways_of_pieces():
    for text, move in WAYS:
        want(moves_of(f"{WAYS_HEAD}{text}\n"), [[move]], text)


def one_game_in_each_form():
    kif, ki2 = kif_of(PLAYED), ki2_of(PLAYED)
    for name, record in {
        "moves": " ".join(PLAYED),
        "moves on lines": "\n".join(PLAYED),
        "a position line": f"position startpos moves {' '.join(PLAYED)}\n",
        "KIF": kif,
        "KIF with a mark of its encoding": b"\xef\xbb\xbf" + kif.encode(),
        "KIF in Shift-JIS": kif.replace("\n", "\r\n").encode("cp932"),
        "KIF in EUC-JP": kif.encode("euc_jp"),
        "KIF in EUC-JP, named": f"#KIF version=2.0 encoding=EUC-JP\n{kif}".encode("euc_jp"),
        "KIF in UTF-16": kif.encode("utf-16"),
        "KIF in UTF-16, the other way": b"\xfe\xff" + kif.encode("utf-16-be"),
        "KI2": ki2,
        "KI2 in Shift-JIS": ki2.encode("cp932"),
        "CSA": csa_of(PLAYED),
        "CSA with commas, in Shift-JIS": csa_of(PLAYED, ",").encode("cp932"),
    }.items():
        want(moves_of(record), [PLAYED], name)


def comments_and_times_of_records():
    for name, (record, comments, times) in COMMENTS.items():
        [game] = read_games(bytes_of(record))
        want(game.comments, comments, name)
        want([move.seconds for move in game.moves], times, f"{name}: times")


def hostile_records():
    for record, why in HOSTILE:
        began = time.monotonic()
        try:
            read_games(bytes_of(record))
            raise Wrong(f"read: {record[:40]!r}")
        except Unreadable as refused:
            want(str(refused), why, repr(record[:40]))
        want(time.monotonic() - began < 60, True, f"seconds for {record[:40]!r}")


def records_that_cannot_be_read():
    for record, why in UNREADABLE:
        if "illegal move" in why or "bad position" in why:
            continue  # the program says that, and not the reader
        try:
            read_games(bytes_of(record))
            raise Wrong(f"read: {record!r}")
        except Unreadable as refused:
            want(str(refused), why, repr(record))


CHECKS = [
    each_form_of_record,
    heads_of_records,
    letters_that_are_no_text,
    many_games_one_a_line,
    handicaps_of_records,
    ends_of_records,
    ways_of_pieces,
    one_game_in_each_form,
    comments_and_times_of_records,
    hostile_records,
    records_that_cannot_be_read,
]
