"""Checks of share/examples/tsume.py: what it reads, what it finds beside the plain definition of mates, its forms, and
what becomes of them where a problem is refused, takes too long, or the program goes away."""

import csv
import io
import json
import os
import signal
import subprocess
import sys
import tempfile

import mates
from checks import IS_UNPROVED, PROGRAM, TOP, want
from minimax_rows import after, in_check, legal_codes, read, text
from records import DIAGRAM
from reports import Tags

EXAMPLES = os.path.join(TOP, "share", "examples")
SAMPLE = os.path.join(EXAMPLES, "problems.sfen")
sys.path.insert(0, EXAMPLES)

from shogi_host.mates.problems import read_problems  # noqa: E402

GOLD = "4k4/9/4P4/9/9/9/9/9/9 b G"
ROOK = "8k/9/7G1/9/9/9/9/9/9 b R"
PAWN = "8k/9/7G1/9/9/9/9/9/9 b Rp"
DROPPED = "7nk/9/7G1/9/9/9/9/9/9 b P"
CHECKED = "4k4/9/4P4/9/9/9/9/9/r3K4 b G"
STALEMATE = "8k/7R1/6S2/9/9/9/9/9/9 b -"
KINGLESS = "9/9/4P4/9/9/9/9/9/4K4 b G"
IMPOSSIBLE = "9/9/9/9/9/9/9/9/9 b 19P"
LIST = f"""# of three plies
# 1 ply
{GOLD}
  sfen {ROOK} 1
Once upon a time
# 3 plies
position sfen {PAWN} 1 moves R*1b 1a2a 1b2b+
{PAWN} moves R*1b
"""
KIF = DIAGRAM + "作品名：<銀>\n作者：金\n詰手数：３手詰\n先手番\n   1 ５二成銀(53)\n"
CSA = "P-51OU\nP+53GI\nP+00KI\n+\n+0052KI\n%TSUMI\n/\n$EVENT:Spring\nP-11OU\n-\n"
READ = {
    "a list": (
        LIST,
        [
            ("f:3", "", GOLD, 1, ""),
            ("f:4", "", f"{ROOK} 1", 1, ""),
            ("f:5", "", "", None, "no move in USI's words: Once"),
            ("f:7", "", f"{PAWN} 1", 3, ""),
            ("f:8", "", PAWN, 1, ""),
        ],
    ),
    "KIF": (KIF, [("f", "<銀>", "4k4/9/4+S4/9/9/9/9/9/4K4 b g12p 1", 3, "")]),
    "CSA": (
        CSA,
        [
            ("f:4", "", "4k4/9/4S4/9/9/9/9/9/9 b G 1", 1, ""),
            ("f:10", "Spring", "8k/9/9/9/9/9/9/9/9 w - 1", None, ""),
        ],
    ),
}
# What the rules say of a few positions, up to 5 plies: the length, the verdict, the line, other last moves, what is
# left in hand, and drops between. After R*1b the king has one move.
FOUND = {
    GOLD: ("1", "sound", "G*5b", "", "", ""),
    ROOK: ("1", "sound", "R*3a", "1 R*4a 1; 1 R*5a 1; 1 R*6a 1; 1 R*7a 1; 1 R*8a 1; 1 R*9a 1", "", ""),
    DROPPED: ("", "no mate", "", "", "", ""),
    CHECKED: ("", "no mate", "", "", "", ""),
    STALEMATE: ("", "no mate", "", "", "", ""),
    KINGLESS: ("", "no mate", "", "", "", ""),
    f"{GOLD}S": ("1", "sound", "G*5b", "", "S", ""),
}
# A program that finds no mate where Black has a gold in hand, and sleeps or ends at any other position.
FAKE = """#!{python}
import sys, time
for line in sys.stdin:
    if " G" not in line:
        {then}
    print("no mate in 9 plies by checks", flush=True)
"""


def script_of(*words):
    """The words that start tsume.py."""
    return [sys.executable, "-B", os.path.join(EXAMPLES, "tsume.py"), *words]


def solved(sent, *words, program=PROGRAM):
    """The status, the output and the lines on standard error for problems."""
    ended = subprocess.run(
        script_of("--program", program, *words),
        input=sent.encode(),
        capture_output=True,
        timeout=300,
        check=False,
    )
    told = ended.stderr.decode().replace("\r", "\n").splitlines()
    return ended.returncode, ended.stdout.decode(), [line for line in told if line.startswith("tsume.py: ")]


def rows_of(sent, *words):
    """The rows of problems that are told as JSON."""
    _, out, _ = solved(sent, "--form", "json", *words)
    return [json.loads(line) for line in out.splitlines()]


def problems_of_each_form():
    for name, (record, problems) in READ.items():
        want([tuple(problem) for problem in read_problems(record.encode(), "f")], problems, name)


def answers_by_the_rules():
    status, out, told = solved("".join(f"{sfen}\n" for sfen in FOUND), "--form", "csv", "--plies", "5")
    want((status, told), (0, []), "none is refused or misstated")
    rows = list(csv.DictReader(io.StringIO(out)))
    columns = ("mate", "verdict", "line", "last", "left", "drops")
    want([row["sfen"] for row in rows], list(FOUND), "the problems")
    want([tuple(row[name] for name in columns) for row in rows], list(FOUND.values()), "what is found")


def mates_of_the_definition():
    """The comparison of check/mates.py, on few positions."""
    words = [os.path.join(TOP, "check", "mates.py"), "--program", PROGRAM, "--positions", "5"]
    ended = subprocess.run([sys.executable, "-B", *words], capture_output=True, text=True, timeout=300, check=False)
    want((ended.returncode, ended.stdout.splitlines()[0].split(" positions")[0]), (0, "20 of 20"), ended.stdout)


def other_keys_of_the_definition():
    """Of each attacker's position on the line but the last, each check by which the mate takes up to 5 plies in all,
    but the one on the line: as the program has them, and as the definition has them."""
    sfens = [PAWN, "4k4/9/4P4/4B4/9/9/9/9/9 b GS"]
    for sfen, row in zip(sfens, rows_of("".join(f"{sfen}\n" for sfen in sfens), "--plies", "5")):
        position, others = read(sfen), []
        want(row["mate"], 2 * mates.shortest(position, 3) - 1, sfen)
        for at, word in enumerate(row["line"][:-1]):
            if at % 2 == 0:
                for move in legal_codes(position):
                    after_it = after(position, move)
                    least = next((left for left in range(3 - at // 2) if mates.is_lost(after_it, left)), None)
                    if in_check(after_it[0], after_it[2]) and least is not None and text(move) != word:
                        others.append((at + 1, text(move), 2 * least + 1))
            position = mates.played(position, word)
        seen = [(key["ply"], key["move"], key["plies"]) for key in row["cooks"] + row["promotions"]]
        want(sorted(seen), sorted(others), sfen)
        want(row["verdict"], "cooked" if row["cooks"] else "sound", sfen)


def lengths_that_are_stated():
    status, out, told = solved(LIST, "--plies", "3")
    why = "tsume.py: <stdin>:"
    faults = [f"{why}5: no move in USI's words: Once", f"{why}8: stated is 1, found mate 3"]
    want((status, told), (1, faults), out)
    status, out, told = solved(f"{GOLD}\n{IMPOSSIBLE}\n{ROOK}\n", "--plies", "1", "--jobs", "3")
    want((status, told), (1, [f"{why}2: there are more pieces of a kind than a set has"]), "one is refused")
    want([line[:4] for line in out.splitlines() if line[3] != " "], ["   1", "   2", "   3"], "their order")
    want(solved("Once upon a time\n")[::2], (1, [f"{why}1:1: neither USI's moves nor KIF nor KI2 nor CSA"]), "no form")


def pages_of_problems():
    with tempfile.TemporaryDirectory() as folder:
        path = os.path.join(folder, "page.html")
        status, _, told = solved(KIF, "--plies", "1", "--html", path, "--title", "<one>")
        want((status, told), (0, []), "three plies are not looked for")
        status, _, told = solved(f"{GOLD}\n{IMPOSSIBLE}\n{DROPPED}\n", "--plies", "3", "--html", path, "--title", "<A>")
        with open(path, encoding="utf-8") as file:
            page = file.read()
    tags = Tags()
    tags.feed(page)
    want((tags.open, page.count('class="board"')), ([], 2), "tags that are open, and boards")
    want(tags.links, ["#problem1", "#problem3"], "links")
    want([tag for tag in ("link", "script", "img", "iframe") if tag in tags.seen], [], "tags that load")
    for words in ("<h1>&lt;A&gt;</h1>", "1. ☗ Black mates in 1<", "3. no mate in 3<", "☗５二金", "than a set has"):
        want(words in page, True, words)


def sample_of_problems():
    """The problems of the sample are as long as it says, and sound; those of three plies also by the definition. Of a
    program that is not proved these alone are asked for."""
    with open(SAMPLE, encoding="ascii") as file:
        problems = read_problems(file.read().encode(), "sample")
    want((len(problems), sorted({problem.stated for problem in problems})), (30, [1, 3, 5, 7, 9]), "lengths")
    want(len({problem.sfen for problem in problems}), 30, "positions")
    short = [problem for problem in problems if problem.stated <= 3]
    for problem in short:
        want(2 * mates.shortest(read(problem.sfen), 2) - 1, problem.stated, problem.sfen)
    most = 3 if IS_UNPROVED else 9
    sent = "".join(f"# {problem.stated} plies\n{problem.sfen}\n" for problem in problems if problem.stated <= most)
    status, out, told = solved(sent, "--plies", str(most), "--jobs", "4", "--form", "csv")
    want((status, told), (0, []), "lengths of the sample")
    for row in csv.DictReader(io.StringIO(out)):
        want((row["verdict"], row["left"], row["drops"]), ("sound", "", ""), row["sfen"])


def what_is_solved_is_kept():
    """Ctrl-C, a program that dies, one that is not there, and one that does not answer: the rows of what is done."""
    sent = f"{GOLD}\n{DROPPED}\n{GOLD}\n"
    with tempfile.TemporaryDirectory() as folder:
        for name, then in (("slow", "time.sleep(600)"), ("dead", "sys.exit(3)"), ("old", "sys.exit(2)")):
            with open(os.path.join(folder, name), "w", encoding="ascii") as file:
                file.write(FAKE.format(python=sys.executable, then=then))
            os.chmod(os.path.join(folder, name), 0o755)
        slow, dead, old, missing = (os.path.join(folder, name) for name in ("slow", "dead", "old", "missing"))
        status, out, told = solved(sent, "--timeout", "5", program=slow)
        want((status, len(out.splitlines()), told), (1, 4, ["tsume.py: <stdin>:2: no answer within 5 s"]), out)
        done = "written is what is done, 1 of 3 problems"
        for program, why in ((dead, "it has ended with status 3"), (old, "it has no command `mate`")):
            status, out, told = solved(sent, program=program)
            want((status, len(out.splitlines())), (2, 1), out)
            want(told, [f"tsume.py: {program}: {why}; {done}"], "why")
        status, out, told = solved(sent, program=missing)
        want((status, out, "No such file" in told[-1]), (2, "", True), told)
        words = script_of("--program", slow)
        with subprocess.Popen(words, stdin=subprocess.PIPE, stdout=subprocess.PIPE, stderr=subprocess.PIPE) as running:
            running.stdin.write(sent.encode())
            running.stdin.close()
            first = running.stdout.readline()
            running.send_signal(signal.SIGINT)
            told = running.stderr.read().decode()
            want((running.wait(60), first), (130, b"   1  no mate in 9\n"), told)
            want(told.splitlines()[-1], f"tsume.py: Ctrl-C; {done}", "Ctrl-C")


CHECKS = [
    problems_of_each_form,
    answers_by_the_rules,
    mates_of_the_definition,
    other_keys_of_the_definition,
    lengths_that_are_stated,
    pages_of_problems,
    sample_of_problems,
    what_is_solved_is_kept,
]
