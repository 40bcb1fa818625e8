"""The texts of reports, in English and in Japanese."""

import os

LANGUAGES = ("en", "ja")
TEXTS = {
    # sides and results
    "Black": ("Black", "先手"),
    "White": ("White", "後手"),
    "won": ("{side} won by {how}", "{side}の勝ち（{how}）"),
    "won plainly": ("{side} won", "{side}の勝ち"),
    "resignation": ("resignation", "投了"),
    "mate": ("mate", "詰み"),
    "time": ("time", "時間切れ"),
    "foul": ("a foul", "反則"),
    "declaration": ("declaration", "入玉宣言"),
    "repetition": ("a draw by repetition", "千日手"),
    "impasse": ("a draw by impasse", "持将棋"),
    "draw": ("a draw", "引き分け"),
    "broken off": ("broken off", "中断"),
    # values
    "mated": ("mated", "詰み"),
    "mates": ("{side} mates in {plies}", "{side}の{plies}詰み"),
    "plies": ("{count} plies", "{count}手"),
    "ply": ("{count} ply", "{count}手"),
    "lost": ("lost {percent}", "損失 {percent}"),
    "lost, missed": ("lost {percent}, missed a mate", "損失 {percent}（詰み逃し）"),
    "lost, allowed": ("lost {percent}, allowed a mate", "損失 {percent}（詰みを許す）"),
    # the page
    "part done": ("the first {done} of {all} moves are analysed.", "{all}手のうち最初の{done}手まで解析しました。"),
    "not complete": ("Not complete:", "未完了："),
    "note": ("Line {line} of the record: {text}.", "棋譜の{line}行目：{text}"),
    "chance": ("Black's chance of winning", "先手の勝率"),
    "chance at depth": ("Black's chance of winning, at depth {depth}", "先手の勝率（深さ{depth}）"),
    "chance after plies": ("Black's chance of winning after each ply", "各手の後の先手の勝率"),
    "curve": (
        "Black's chance of winning after each ply: 1 / (1 + e^(−v/{scale})) of the position's value v, the mean of "
        "those at depths {shallower} and {depth}, in points; a captured pawn is {pawn}. A mate is 0 or 100 %.",
        "各手の後の先手の勝率。局面の評価値 v（深さ{shallower}と{depth}の平均、歩1枚の得が{pawn}点）から "
        "1 / (1 + e^(−v/{scale})) で求めます。詰みは0 %か100 %です。",
    ),
    "times told": (
        "The bars below are the time of each move: the longest took {longest}.",
        "下の棒は一手ごとの消費時間です。最長は{longest}です。",
    ),
    "seconds": ("{count} s", "{count}秒"),
    "minutes": ("{minutes}:{seconds:02} min", "{minutes}分{seconds}秒"),
    "plies played": ("plies played", "手数"),
    "Black ahead": ("☗ Black is ahead", "☗ 先手優勢"),
    "White ahead": ("☖ White is ahead", "☖ 後手優勢"),
    "time a move": ("time", "時間"),
    # the table of sides
    "moves": ("moves", "手数"),
    "slips": ("slips", "疑問手"),
    "overlooked": ("overlooked", "見落とし"),
    "left hanging": ("left hanging", "タダ取られ"),
    "missed a gain": ("missed gains", "駒得逃し"),
    "missed a mate": ("missed mates", "詰み逃し"),
    "mean loss": ("mean loss", "平均損失"),
    "accuracy": ("accuracy", "精度"),
    "only move": ("best move found", "最善手一致"),
    "opening name": ("opening", "戦法"),
    "castle name": ("castle", "囲い"),
    "sides told": (
        "A slip lost {slip} of the chance of winning or more. A loss is the least on which depths {shallower} and "
        "{depth} agree, with the played move seen one ply deeper too. A slip overlooked what was threatened, left "
        "something hanging by the move itself, or missed a gain or a mate.",
        "疑問手は勝率を{slip}以上失った手です。損失は、深さ{shallower}と{depth}、および指し手の後を一手深く読んだ値の"
        "うち最小のものです。疑問手は、相手の狙いの見落とし、その手自身によるタダ取られ、駒得逃し、詰み逃しに分けます。",
    ),
    "accuracy told": (
        "Accuracy is by the formula of {source}, from these losses.",
        "精度は{source}の計算式によります。",
    ),
    "only told": (
        "“Best move found” counts the moves where one move alone is best.",
        "「最善手一致」は最善手が一つだけの局面で数えます。",
    ),
    "phase": ("mean loss in the", "局面別の平均損失"),
    "opening": ("opening", "序盤"),
    "middle": ("middle game", "中盤"),
    "end": ("endgame", "終盤"),
    "phases told": (
        "The opening lasts to the third capture of a piece other than a pawn, and the endgame begins with the tenth.",
        "歩以外の駒が3枚取られるまでを序盤、10枚目からを終盤とします。",
    ),
    # marks
    "marks": ("The moves that lost most", "勝率を大きく失った手"),
    "marks told": (
        "Losses are of the chance of winning; values are in pawns won, for Black.",
        "損失は勝率、評価値は先手から見た歩得の枚数です。",
    ),
    "no marks": ("No move lost {slip} of the chance of winning.", "勝率を{slip}以上失った手はありません。"),
    "mark": ("{number}. Ply {ply}: {move} {lost}", "{number}. {ply}手目 {move}：{lost}"),
    "played": ("Played {move}: {value}", "指し手 {move}：{value}"),
    "best was": ("Best was {move}: {value}", "最善手 {move}：{value}"),
    "best": ("best was {move}", "最善手 {move}"),
    "threat": (
        "Overlooked the threat {move} ({gain})",
        "相手の狙い {move}（{gain}）を見落とした",
    ),
    "threat of mate": ("Overlooked the threat of mate by {move}", "{move}からの詰めろを見落とした"),
    "hanging": ("The move itself left something hanging", "この手自身が駒損を招いた"),
    "hanging in check": (
        "The move answered a check, and left something hanging",
        "王手を受けたが、この手自身が駒損を招いた",
    ),
    "gain": ("Missed a gain", "駒得を逃した"),
    "missed mate": ("Missed a mate in {plies}", "{plies}の詰みを逃した"),
    "missed mates": ("Missed mates", "詰み逃し"),
    "missed told": (
        "Mates by checks up to {plies}, after which the move that was played no longer mates.",
        "指し手の後では詰まなくなった、{plies}以内の王手の連続による詰みです。",
    ),
    "missed mate line": ("missed a mate in {plies}: {line}", "{plies}の詰みを逃した：{line}"),
    "missed at": ("Ply {ply}: {move} {words}", "{ply}手目 {move}：{words}"),
    "lishogi": ("This position on lishogi", "この局面をlishogiで見る"),
    "board label": ("The board before ply {ply}: played {move}", "{ply}手目の局面、指し手 {move}"),
    # the second engine
    "second agrees": ("{engine} says so too: lost {percent}", "{engine}も同じ判断：損失 {percent}"),
    "second differs": ("{engine} differs: lost {percent}", "{engine}は異なる判断：損失 {percent}"),
    "second sees": ("It sees {move}: {value}, and after the move {after}", "読み筋 {move}：{value}、指し手の後 {after}"),
    "second told": (
        "✓ marks the moves on which {engine} (go {go}) agrees; its values are in pawns as it counts them. A loss is by "
        "the same formula.",
        "✓は{engine}（go {go}）も同じ判断をした手です。評価値はそのエンジンの歩の単位で、損失は同じ式で求めます。",
    ),
    "second both": ("{both} of {all} marks are of both.", "{all}手のうち{both}手で一致しました。"),
    "exact": ("exact", "全幅探索"),
    # stepping
    "step": ("The game", "棋譜"),
    "first": ("to the beginning", "開始局面へ"),
    "back": ("one move back", "一手戻る"),
    "on": ("one move on", "一手進む"),
    "last": ("to the end", "最終局面へ"),
    "start": ("The first position", "開始局面"),
    "step told": (
        "The arrow keys step as well, and the curve and the list lead to a position.",
        "矢印キーでも動かせます。グラフや一覧を押すとその局面に移ります。",
    ),
    # the list
    "all moves": ("All moves", "全指し手"),
    "moves told": (
        "The value is that of the move that was played. A better move is named where that lost a pawn or more.",
        "評価値は指し手の後のものです。歩1枚以上の損をした手にだけ最善手を示します。",
    ),
    "column ply": ("ply", "手"),
    "column move": ("move", "指し手"),
    "column value": ("value", "評価値"),
    "column best": ("best", "最善手"),
    "column lost": ("lost", "損失"),
    "column time": ("time", "時間"),
    "made": (
        "Made by analyse.py from {name}, by {program} at depth {depth}, evaluation {evaluation}.",
        "analyse.pyが{name}から作成。{program}、深さ{depth}、評価関数{evaluation}。",
    ),
    "most lost": ("The moves that lost most:", "勝率を大きく失った手："),
    "picture mark": ("ply {ply}: {move} {lost}", "{ply}手目 {move} {lost}"),
    # the record
    "record made": (
        "{program}, depth {depth}, evaluation {evaluation}; values in hundredths of a pawn won, for Black",
        "{program}、深さ{depth}、評価関数{evaluation}。評価値は先手から見た歩得の百分の一",
    ),
    "record mark": ("{number} of the moves that lost most: {lost}", "疑問手{number}：{lost}"),
    "record best": ("best was {line} ({value})", "最善は{line}（{value}）"),
}


def say(language: str, key: str, **words: object) -> str:
    """A text of the report."""
    return TEXTS[key][LANGUAGES.index(language)].format(**words)


def language_here() -> str:
    """The language that the environment asks for: Japanese where it says so, and else English."""
    locale = next((os.environ[name] for name in ("LC_ALL", "LC_MESSAGES", "LANG") if os.environ.get(name)), "")
    return "ja" if locale.startswith("ja") else "en"
