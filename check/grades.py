"""Checks of share/examples/grade.py: several jobs, the two formats, and going on behind what an earlier call wrote."""

import csv
import io
import itertools
import json
import os
import re
import signal
import subprocess
import sys
import tempfile

from checks import PROGRAM, TOP, want
from reports import EXAMPLES, make_fake

sys.path.insert(0, EXAMPLES)

from shogi_host.grade import Csv, Jsonl, resumed  # noqa: E402

RATES = r"grade\.py: (\d+ positions.*), (\d+) refused; [\d.]+ s, [\d.]+ a second, [\d.]+ with each of (\d+)\n"
IMPOSSIBLE = "9/9/9/9/9/9/9/9/9 b 19P 1"
MATED = "4k4/9/4G4/9/9/9/9/9/9 w G 1"

# Positions of games, each asked for by its moves; one that is refused, one with a comma and quotes, and a mated side.
with open(os.path.join(TOP, "bench", "games.txt"), encoding="ascii") as games:
    MOVES = [game.split() for game in games.read().splitlines()]
SFENS = [f"startpos moves {' '.join(moves[:plies])}" for moves in MOVES for plies in (1, 20)]
SFENS[3:3] = [IMPOSSIBLE, 'a "position", of no game', MATED]
INPUT = "# positions\n" + "\n".join(SFENS) + "\n"


def script_of(*words, program=PROGRAM, depth="1"):
    """The words that start grade.py."""
    path = os.path.join(EXAMPLES, "grade.py")
    return [sys.executable, "-B", path, "--program", program, "--depth", depth, "--eval", "Plain", *words]


def graded(*words, sent=INPUT, **how):
    """The status, the output and what is told of positions."""
    ended = subprocess.run(script_of(*words, **how), input=sent.encode(), capture_output=True, timeout=300, check=False)
    return ended.returncode, ended.stdout, ended.stderr.decode()


def several_jobs_write_the_same():
    for form in ("csv", "jsonl"):
        first = graded("--format", form, "--jobs", "1")
        want(re.fullmatch(RATES, first[2]).groups(), (f"{len(SFENS)} positions", "2", "1"), "the rates")
        for jobs in ("3", "64") if form == "csv" else ("3",):
            seen = graded("--format", form, "--jobs", jobs)
            want(seen[:2], first[:2], f"{form}, {jobs} jobs")
            count = str(min(int(jobs), len(SFENS)))
            want(re.fullmatch(RATES, seen[2]).groups(), (f"{len(SFENS)} positions", "2", count), "the rates")
    want(graded("--jobs", "4", sent="# none\n")[1], b"sfen,depth,best,cp,mate,pv,error\n", "no positions")
    want(graded("--format", "jsonl", sent="")[:2], (0, b""), "no positions")
    for jobs in ("0", "-1", "257", "x"):
        want(graded("--jobs", jobs)[0], 2, jobs)


def the_first_answers_come_first():
    """A program that sleeps at one position holds up no row before it, and loses none behind it."""
    with tempfile.TemporaryDirectory() as folder:
        fake = make_fake(folder, then="time.sleep(moves == 1 and 3)", most=0)
        sent = "startpos\nstartpos moves 7g7f\nstartpos\nstartpos\n"
        status, table, told = graded("--jobs", "2", program=fake, sent=sent)
        want((status, [row.split(b",")[0] for row in table.split(b"\n")[1:-1]]), (0, sent.encode().split(b"\n")[:-1]), told)
        fake = make_fake(folder, then="sys.exit(moves and 3)", most=0)
        for jobs in ("1", "3"):
            status, table, told = graded("--jobs", jobs, program=fake, sent=sent)
            want((status, table.count(b"\n")), (2, 1), told)
            want(re.search(r"it has ended with status \d\n$", told) is not None, True, told)


def objects_say_what_rows_say():
    """Both formats, with one line and with three."""
    for lines in (1, 3):
        rows = list(csv.DictReader(io.StringIO(graded("--lines", str(lines))[1].decode())))
        objects = [json.loads(line) for line in graded("--lines", str(lines), "--format", "jsonl")[1].splitlines()]
        want([it["sfen"] for it in objects], SFENS, "one for each position")
        want({(it["depth"], it["eval"], it["multipv"]) for it in objects}, {(1, "Plain", lines)}, "what was asked")
        seen = []
        for it in objects:
            shown = [{"pv": [it.get("best", "")][: "best" in it], "error": it.get("error", "")}]
            for number, line in enumerate(it.get("lines") or shown, 1):
                row = {"sfen": it["sfen"], "depth": "1", "best": (line["pv"] or [""])[0], "line": str(number)}
                row |= {name: str(line.get(name, "")) for name in ("cp", "mate", "lead", "error")}
                row["pv"] = " ".join(line["pv"]) if it.get("lines") else ""
                seen.append({name: row[name] for name in rows[0]})
        want(seen, rows, f"{lines} lines")


def pieces_of(whole, form, sfens):
    """The bytes of the head and of each position."""
    rows = whole.splitlines(keepends=True)
    pieces = [b"", *([b""] * len(sfens))]
    for row in rows:
        at = 0 if row == form.head.encode() else 1 + sfens.index(form.read(row.decode())[0])
        pieces[at] += row
    want(b"".join(pieces), whole, "the pieces")
    return pieces


def a_call_goes_on_behind_the_last_whole_row():
    """A file that is cut off at any place, and also within a letter, keeps its head and whole positions; the script is
    run from a few of these places."""
    sfens = [IMPOSSIBLE, "startpos", "局面", MATED, "4k4/9/4P4/9/9/9/9/9/9 b G 1"]
    sent = "\n".join(sfens)
    with tempfile.TemporaryDirectory() as folder:
        path = os.path.join(folder, "grades")
        for words, form in [
            (["--lines", "2"], Csv(1, "Plain", 2)),
            (["--format", "jsonl", "--lines", "2"], Jsonl(1, "Plain", 2)),
            ([], Csv(1, "Plain", 1)),
        ]:
            whole = graded(*words, "--jobs", "1", sent=sent)[1]
            pieces = pieces_of(whole, form, sfens)
            for cut in range(len(whole) + 1):
                with open(path, "wb") as file:
                    file.write(whole[:cut])
                file, done = resumed(path, form, sfens)
                kept = file.tell()
                file.close()
                wanted = sum(map(len, pieces[: len(done) + 1])) if cut >= len(pieces[0]) else 0
                want((kept, os.path.getsize(path)), (wanted, wanted), f"cut at {cut}")
                want(done, [number in (0, 2) for number in range(len(done))], f"cut at {cut}: which were refused")
                begins = itertools.accumulate(map(len, pieces))
                if form.head and form.wanted > 1:
                    # Of the last position more rows might follow.
                    firsts = [at + piece.find(b"\n") + 1 for at, piece in zip(begins, pieces[1:])]
                    count = max(sum(at <= cut for at in firsts) - 1, 0)
                else:
                    count = sum(at <= cut for at in list(begins)[1:])
                want(len(done), count, f"cut at {cut}: positions")
            for cut in (0, len(whole) // 2, len(whole)):
                with open(path, "wb") as file:
                    file.write(whole[:cut])
                status, out, told = graded(*words, "--resume", path, "--jobs", "2", sent=sent)
                with open(path, "rb") as file:
                    want((status, out, file.read()), (1, b"", whole), f"{words}, cut at {cut}: {told}")
        want("5 positions, 5 before, 2 refused;" in told, True, told)
        os.unlink(path)
        want(graded("--resume", path, sent=sent)[:2], (1, b""), "a file that is not there")
        with open(path, "rb") as file:
            want(file.read(), whole, "is made")


def another_file_is_left_as_it_is():
    with tempfile.TemporaryDirectory() as folder:
        path = os.path.join(folder, "grades")
        head = "sfen,depth,best,cp,mate,pv,error\n"
        row = "startpos,1,1g1f,0,,1g1f,\n"
        for kept, words, why in [
            ("a letter to a friend\n", [], "1: written with other words"),
            (head, ["--lines", "2"], "1: written with other words"),
            (head + row.replace(",1,", ",2,"), [], "2: no row of these words"),
            (head + "startpos\n", [], "2: no row of these words"),
            (head + "startpos moves 7g7f,1,1g1f,0,,1g1f,\n", [], "2: another position"),
            (head + row + row, [], "3: another position"),
            (head, ["--format", "jsonl"], "1: no row of these words"),
            ('{"sfen": "startpos", "depth": 1, "eval": "Hand", "multipv": 1}\n', ["--format", "jsonl"], "1: no row"),
            ("\x00\n", ["--format", "jsonl"], "1: no row of these words"),
        ]:
            with open(path, "w", encoding="utf-8") as file:
                file.write(kept)
            status, out, told = graded(*words, "--resume", path, sent="startpos\n")
            want((status, out, told.startswith(f"grade.py: {path}:{why}")), (2, b"", True), f"{kept!r}: {told}")
            with open(path, encoding="utf-8") as file:
                want(file.read(), kept, "the file")


def a_killed_call_is_gone_on_with():
    """Ended by -9 in the middle, it leaves rows that the next call goes on behind."""
    whole = graded("--jobs", "1")[1]
    with tempfile.TemporaryDirectory() as folder:
        path, stop = (os.path.join(folder, name) for name in ("grades", "stop"))
        fake = make_fake(folder, most=3, then=f"open({stop!r}, 'w'); time.sleep(600)")
        with subprocess.Popen(
            script_of("--resume", path, "--jobs", "1", program=fake), stdin=subprocess.PIPE, stderr=subprocess.DEVNULL
        ) as running:
            running.stdin.write("\n".join(["startpos"] * 9).encode())
            running.stdin.close()
            while not os.path.exists(stop):
                signal.sigtimedwait([], 0.05)
            running.kill()
        status, _, told = graded("--resume", path, "--jobs", "2", sent="startpos\n" * 9)
        want((status, "9 positions, 3 before, 0 refused;" in told), (0, True), told)
        with open(path, "rb") as file:
            want(file.read(), graded("--jobs", "1", sent="startpos\n" * 9)[1], "the file")
        want(graded("--resume", os.path.join(folder, "all"), "--jobs", "3")[0], 1, "the whole")
        with open(os.path.join(folder, "all"), "rb") as file:
            want(file.read(), whole, "the whole")


CHECKS = [
    several_jobs_write_the_same,
    the_first_answers_come_first,
    objects_say_what_rows_say,
    a_call_goes_on_behind_the_last_whole_row,
    another_file_is_left_as_it_is,
    a_killed_call_is_gone_on_with,
]
