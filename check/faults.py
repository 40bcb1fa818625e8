"""Checks of the scripts in share/examples at odd engines, at hosts that are full or not there, at words that no host
takes, and of what they show on a terminal."""

import os
import pty
import re
import shlex
import subprocess
import sys
import tempfile
import time
import xml.etree.ElementTree

from checks import PROGRAM, TOP, Wrong, want
from grades import RATES
from reports import EXAMPLES, analysed, make_fake

sys.path.insert(0, EXAMPLES)

from shogi_host import Engine, Garbled  # noqa: E402
from shogi_host.engine import bounds_of, is_number, options_of  # noqa: E402
from shogi_host.records import read_games  # noqa: E402

# An engine whose name and options are in Shift-JIS, with numbers and names that are none, and a bestmove by its word.
ODD = """#!{python}
import sys
sys.stdout = open(1, "w", encoding="cp932", buffering=1)
for line in sys.stdin:
    if line.startswith("usi"):
        print("id name 将棋\\noption name 深さ type spin default a min b max c\\noption name N type spin min")
        print("option name M type spin default 1 min 9 max 1\\noption name C type combo\\noption\\nusiok")
    if line.startswith("isready"):
        print("readyok")
    if line.startswith("go"):
        print("{best}")
"""


def run(name, *words, sent="startpos\n", env=None):
    """The status, the output and what is told by a script."""
    script = [sys.executable, "-B", os.path.join(EXAMPLES, name), *words]
    ended = subprocess.run(script, input=sent.encode(), capture_output=True, timeout=120, check=False, env=env)
    return ended.returncode, ended.stdout.decode(), re.sub(RATES, "", ended.stderr.decode())


def made(folder, text):
    """A program with this text; its path."""
    path = os.path.join(folder, "engine")
    with open(path, "w", encoding="utf-8") as file:
        file.write(text)
    os.chmod(path, 0o755)
    return path


def compared(engine, *words):
    """What compare.py says of an engine."""
    return run("compare.py", "--program", PROGRAM, "--engine", engine, "--depth", "2", *words)


def odd_engines():
    """Letters in Shift-JIS and options that are none are passed over; a bestmove without a move is named."""
    with tempfile.TemporaryDirectory() as folder:
        status, table, told = compared(made(folder, ODD.format(python=sys.executable, best="bestmove 1g1f")))
        want((status, table.splitlines()[1]), (0, "startpos,1g1f,cp 0,1g1f,cp 0,0,"), told)
        for best in ("bestmove", "bestmove "):
            engine = made(folder, ODD.format(python=sys.executable, best=best))
            status, table, told = compared(engine)
            why = f"compare.py: the other engine, {engine}: a bestmove without a move\n"
            want((status, len(table.splitlines()), told), (2, 1, why), "a bare bestmove")
            client = Engine.popen([engine], lines=None)
            want(client.offered, {}, "what it offers")
            try:
                client.go()
                raise Wrong("a bestmove without a move")
            except Garbled:
                client.close()
    for words in (["min"], "min 1 max".split(), "min 1 max 1e3".split(), "max 8 min \u0663".split()):
        want(None in bounds_of(words), True, f"{words}")
    offered = options_of(["option name Hash type spin default 16 min 1 max 33554432"])["Hash"]
    taken = [is_number(number, offered) for number in (0, 1, 33554432, 33554433, -1, "016")]
    want(taken, [False, True, True, False, False, True], "a wide range")
    want([is_number(number, range(-5, 6)) for number in (-6, -5, "-0", 5)], [False, True, True, True], "below 0")


def command_lines_of_an_engine():
    for engine, why in [
        ("", "a command has at least the name of a program"),
        ("''", "a command has at least the name of a program"),
        ("engine 'x", "no closing quotation: engine 'x"),
    ]:
        status, table, told = compared(engine)
        want((status, table, told.splitlines()[-1]), (2, "", f"compare.py: error: argument --engine: {why}"), repr(engine))
    status, table, told = compared("/no/such engine")
    want((status, table, told), (2, "", "compare.py: the other engine, /no/such: No such file or directory\n"), "none")


def is_alive(number):
    """Whether a process runs."""
    try:
        with open(f"/proc/{number}/stat", encoding="ascii") as file:
            return file.read().rpartition(") ")[2][0] not in "ZX"
    except FileNotFoundError:
        return False


def engine_that_closes_its_output():
    """It is named, and does not run on."""
    with tempfile.TemporaryDirectory() as folder:
        kept = os.path.join(folder, "process")
        engine = made(folder, f"#!/bin/sh\necho $$ > {shlex.quote(kept)}\nexec >&-\nexec sleep 300\n")
        want(compared(engine), (2, "", f"compare.py: the other engine, {engine}: it has closed its output\n"), "told")
        with open(kept, encoding="ascii") as file:
            want(is_alive(int(file.read())), False, "the engine runs on")


def hosts_that_are_not_there_or_full():
    """After a second a line says so, and once the patience is over the status is 2."""
    with tempfile.TemporaryDirectory() as folder:
        path = os.path.join(folder, "socket")
        began = time.monotonic()
        told = run("grade.py", "--socket", path, "--patience", "2")
        why = f"grade.py: {path}: No such file or directory"
        want(told, (2, "", f"{why}; it is tried again for 2 s\n{why}\n"), "nobody there")
        want(2 <= time.monotonic() - began < 60, True, "the patience")
        want(run("grade.py", "--socket", path, "--patience", "0"), (2, "", f"{why}\n"), "without patience")
        long = os.path.join(folder, "x" * 110)
        want(run("grade.py", "--socket", long), (2, "", f"grade.py: {long}: AF_UNIX path too long\n"), "too long a path")
        with subprocess.Popen([PROGRAM, "serve", "--socket", path, "--slots", "1"]) as host:
            try:
                first = Engine.connect(path, patience=20)
                full = f"{path}: the host has as many clients as it takes"
                again = f"compare.py: {full}; it is tried again for 2 s\ncompare.py: {full}\n"
                words = ["--engine", PROGRAM, "--socket", path, "--patience", "2", "--depth", "2"]
                want(run("compare.py", *words), (2, "", again), "a full host")
                first.close()
                words = ["--socket", path, "--depth", "1", "--eval", "plain"]
                want(run("grade.py", *words)[:2], (0, GRADED), "with room again")
            finally:
                host.terminate()
    for patience in ("-1", "x", "inf", ""):
        status, _, told = run("grade.py", "--patience", patience)
        want((status, "a time is a number of seconds above 0" in told), (2, True), told)


MATE_IN_ONE = "4k4/9/4P4/9/9/9/9/9/9 b G 1"
GRADED = "sfen,depth,best,cp,mate,pv,error\nstartpos,1,1g1f,0,,1g1f,\n"


def programs_that_are_not_there():
    how = "--program PATH names the program to start, --socket PATH a host that runs"
    for name in ("client.py", "grade.py", "analyse.py", "compare.py"):
        words = ["--engine", PROGRAM] if name == "compare.py" else []
        status, table, told = run(name, *words, *(["-"] if name == "client.py" else []), env={**os.environ, "PATH": "/none"})
        want((status, table), (1 if name == "client.py" else 2, ""), told)
        want(told, f"{name}: usi_host: No such file or directory; {how}\n", name)
    how = how.partition(",")[0]
    why = f"tsume.py: usi_host: No such file or directory; {how}; written is what is done, 0 of 1 problems\n"
    want(run("tsume.py", sent=f"{MATE_IN_ONE}\n", env={**os.environ, "PATH": "/none"}), (2, "", why), "tsume.py")


def evaluations_by_both_names():
    for name in ("plain", "Plain"):
        words = ["--program", PROGRAM, "--depth", "1", "--eval", name]
        want(run("grade.py", *words)[:2], (0, GRADED), name)
    status, _, told = run("grade.py", "--eval", "PLAIN")
    want((status, "invalid choice: 'PLAIN'" in told), (2, True), told)


def words_that_a_host_passes_over():
    """Are not sent: the answer would be that to a `go` without them."""
    with tempfile.TemporaryDirectory() as folder:
        client = Engine.popen([make_fake(folder)])
        for line in ("go nodes 100", "go depth 2 searchmoves 7g7f", "  go\tsearchmoves 7g7f"):
            try:
                client.send(line)
                raise Wrong(f"sent: {line}")
            except ValueError as why:
                want(str(why), "a go with nodes or searchmoves is answered as one without", line)
        want(client.go(1).best, "1g1f", "the session goes on")
        client.close()


def other_letters_in_other_locales():
    sent, row = "# 局面\n局面\n", "局面,2,,,,,bad position 1"
    for locale in ({"LC_ALL": "POSIX"}, {"LC_ALL": "POSIX", "PYTHONCOERCECLOCALE": "0", "PYTHONUTF8": "0"}):
        words = ["--program", PROGRAM, "--depth", "2"]
        status, table, told = run("grade.py", *words, sent=sent, env={**os.environ, **locale})
        want((status, table.splitlines()[1:]), (1, [row]), told)
        status, table, told = run("tsume.py", *words[:2], sent=f"{MATE_IN_ONE}\n", env={**os.environ, **locale})
        want((status, table), (0, "   1  mate 1  sound  ☗５二金\n"), told)
    lines = "# a\u2028startpos\n# b\x85startpos\nstartpos\n"
    want(run("grade.py", *words[:3], "1", "--eval", "Plain", sent=lines)[:2], (0, GRADED), "lines of other kinds")


def names_with_letters_that_are_no_text():
    """The pictures are well formed, and the record that is written has the names and no line more."""
    record = "先手：甲\x1b[31m\u2028手合割：六枚落ち\n後手：乙\x85先手：丙\n手合割：平手\n   1 ７六歩(77)\n"
    with tempfile.TemporaryDirectory() as folder:
        svg, kif = (os.path.join(folder, f"game.{kind}") for kind in ("svg", "kif"))
        words = ["--program", PROGRAM, "--svg", svg, "--kif", kif, "--title", "t\x1b\u2028後手：丁"]
        status, _, told = analysed(record, *words)
        want(status, 0, f"{told}")
        xml.etree.ElementTree.parse(svg)
        with open(kif, encoding="utf-8") as file:
            text = file.read()
    want(text.splitlines(), text[:-1].split("\n"), "lines by every way to split")
    [game] = read_games(text.encode())
    names = game.head["black"], game.head["white"], game.start.split()[1][:9]
    want(names, ("甲 [31m 手合割：六枚落ち", "乙 先手：丙", "lnsgkgsnl"), "the names")


SENT = {"grade.py": b"startpos\nstartpos\n", "analyse.py": b"7g7f", "tsume.py": f"{MATE_IN_ONE}\n".encode()}


def terminal_of(*script):
    """What a script shows on a terminal, as its standard error."""
    ours, theirs = pty.openpty()
    with subprocess.Popen(script, stdin=subprocess.PIPE, stdout=subprocess.DEVNULL, stderr=theirs) as running:
        running.stdin.write(SENT[os.path.basename(script[2])])
        running.stdin.close()
        os.close(theirs)
        seen = b""
        try:
            while piece := os.read(ours, 4_096):
                seen += piece
        except OSError:
            pass  # how a terminal tells of its end
        os.close(ours)
    return seen.decode()


def progress_is_for_terminals():
    for name, wanted in [
        ("grade.py", ["1 of 2, 0 refused", "2 of 2, 0 refused", "grade.py: 2 positions, 0 refused; "]),
        ("analyse.py", ["1 of 2 positions", "2 of 2 positions, 0:00 left"]),
        ("tsume.py", ["1 of 1"]),
    ]:
        words = ["--program", PROGRAM]
        if name != "tsume.py":
            words += ["--depth", "4" if name == "analyse.py" else "1", "--eval", "Plain"]
        seen = terminal_of(sys.executable, "-B", os.path.join(TOP, "share", "examples", name), *words)
        want([text for text in wanted if f"\r{text}" not in seen], [], f"{name}: {seen!r}")


CHECKS = [
    odd_engines,
    command_lines_of_an_engine,
    engine_that_closes_its_output,
    hosts_that_are_not_there_or_full,
    programs_that_are_not_there,
    evaluations_by_both_names,
    words_that_a_host_passes_over,
    other_letters_in_other_locales,
    names_with_letters_that_are_no_text,
    progress_is_for_terminals,
]
