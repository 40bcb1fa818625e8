#!/usr/bin/env python3
"""Runs the scripts of `share/examples` against the built program, over its standard input and output and
as a host on a Unix socket. Its one argument is the program; without it, the program that `make build`
makes. Its last line is `N passed, M failed`. The checks of records, of reports and of problems stand in records.py,
reports.py and problems.py, those of grade.py's jobs in grades.py, those of the client in
clients.py, those of odd engines and hosts in faults.py."""

import os
import re
import shutil
import socket
import subprocess
import sys
import tempfile
import threading

import clients
import faults
import grades
import problems
import records
import reports
from checks import PROGRAM, TOP, USI, Wrong, run_all, want

EXAMPLES = os.path.join(TOP, "share", "examples")
sys.path.insert(0, EXAMPLES)
sys.path.append(os.path.join(TOP, "bench"))
sys.dont_write_bytecode = True

from marks import asked  # noqa: E402
from shogi_host import Engine, Gone, HostFull, Lacking, Refused, TooSlow  # noqa: E402
from shogi_host.engine import LINE_MAX, options_of  # noqa: E402

MATE_IN_ONE = "4k4/9/4P4/9/9/9/9/9/9 b G 1"
MATED = "4k4/9/4G4/9/9/9/9/9/9 w G 1"
IMPOSSIBLE = "9/9/9/9/9/9/9/9/9 b 19P 1"
SFENS = f"# four positions\nstartpos\n\n{MATE_IN_ONE}\n{IMPOSSIBLE}\n{MATED}\n"
GRADES = f"""sfen,depth,best,cp,mate,pv,error
startpos,3,7g7f,200,,7g7f 4c4d 8h4d,
{MATE_IN_ONE},3,G*5b,,1,G*5b,
{IMPOSSIBLE},3,,,,,bad position 4
{MATED},3,5a4a,,-2,5a4a G*4b,
"""
# The other engine is the program itself, one ply deep: from the opening position its move gains nothing.
COMPARED = f"""sfen,best,best_worth,engine,engine_worth,loss,error
startpos,7g7f,cp 200,1g1f,cp 0,200,
{MATE_IN_ONE},G*5b,mate 1,G*5b,mate 1,0,
{IMPOSSIBLE},,,,,,bad position 4
{MATED},5a4a,mate -2,5a4a,mate -2,0,
"""
SUMMARY = """compare.py: 2 of 3 moves are worth as much as the best one
mean loss 67
the greatest differences:
  200: 1g1f, best 7g7f, startpos
"""
# One legal move.
CORNERED = "9/9/9/9/9/9/9/r8/8K b - 1"
# Two lines of each position at depth 1, by hand.
LINES = f"""sfen,depth,line,best,cp,mate,pv,lead,error
position sfen {MATE_IN_ONE},1,1,G*5b,,1,G*5b,mate,
position sfen {MATE_IN_ONE},1,2,5c5b+,1200,,5c5b+,,
{CORNERED},1,1,1i2i,-1000,,1i2i,only,
{MATED},1,1,5a4a,-1200,,5a4a,0,
{MATED},1,2,5a6a,-1200,,5a6a,,
{IMPOSSIBLE},1,1,,,,,,bad position 4
"""


class Host:
    """The program as a host, ended with the block."""

    def __init__(self, path, *words):
        self.path, self.words = path, words

    def __enter__(self):
        self.process = subprocess.Popen([PROGRAM, "serve", "--socket", self.path, *self.words])
        return self

    def __exit__(self, *_):
        self.process.terminate()
        self.process.wait()
        os.unlink(self.path)


def want_opening(client):
    answer = client.analyse("startpos", 3)
    want((answer.best, answer.ponder), ("7g7f", "4c4d"), "the best move")
    want([line.cp for line in answer.lines], [0, 0, 200], "the scores")
    want(answer.lines[-1].pv, ("7g7f", "4c4d", "8h4d"), "the pv")


def client_of_a_process():
    client = Engine.popen([PROGRAM])
    want_opening(client)
    client.close()


def client_before_its_host():
    with tempfile.TemporaryDirectory() as folder:
        host = Host(os.path.join(folder, "socket"))
        late = threading.Timer(0.5, host.__enter__)
        late.start()
        client = Engine.connect(host.path, patience=20)
        want_opening(client)
        client.close()
        late.join()
        host.__exit__()


def client_without_a_host():
    with tempfile.TemporaryDirectory() as folder:
        try:
            Engine.connect(os.path.join(folder, "socket"), patience=0.1)
        except Gone:
            return
        raise Wrong("a client without a host")


def client_of_a_full_host():
    with tempfile.TemporaryDirectory() as folder:
        with Host(os.path.join(folder, "socket"), "--slots", "1") as host:
            first = Engine.connect(host.path, patience=20)
            try:
                Engine.connect(host.path, patience=0.1)
                raise Wrong("a client of a full host")
            except HostFull:
                pass
            first.close()
            second = Engine.connect(host.path, patience=20)
            want_opening(second)
            second.close()


def client_of_a_host_that_is_full_at_once():
    """A host that has said that it is full, and has ended, before the client writes."""
    with tempfile.TemporaryDirectory() as folder, socket.socket(socket.AF_UNIX) as host:
        path = os.path.join(folder, "socket")
        host.bind(path)
        host.listen()
        host.settimeout(20)

        class Slow(Engine):
            def send(self, line):
                connection, _ = host.accept()
                connection.sendall(b"info string host full\n")
                connection.close()
                super().send(line)

        try:
            Slow(path=path, patience=0)
            raise Wrong("a client of a host that is full at once")
        except HostFull:
            pass


def client_that_connects_again():
    with tempfile.TemporaryDirectory() as folder:
        path = os.path.join(folder, "socket")
        with Host(path):
            client = Engine.connect(path, patience=20)
            client.configure({"MultiPV": 2})
            want_opening_of_two(client)
        with Host(path):
            want_opening_of_two(client)
            client.close()


def want_opening_of_two(client):
    answer = client.analyse("startpos", 1)
    want([(line.number, line.cp) for line in answer.lines], [(1, 0), (2, 0)], "two lines")
    want((answer.line(1, 2), answer.line(1, 3)), (answer.lines[1], None), "by number")


def client_that_finds_another_host():
    """A session keeps what it was asked for, and what the first host began with; a host without that is named."""
    said = "an option with a value that it does not have: Eval is Plain or Hand, and not 'Exchange'"
    deep = "a depth is a whole number from 1 to 2, and not 3"
    with tempfile.TemporaryDirectory() as folder:
        path = os.path.join(folder, "socket")
        for words, options, depth, others, why in [
            ((), {}, 3, ["--max-depth", "2"], deep),
            ((), {"Depth": 3}, None, ["--max-depth", "2"], "a number out of range: Depth is a whole number"),
            (("--depth", "3"), {}, None, ["--max-depth", "2"], "a depth is a whole number from 1 to 2, and not '3'"),
            (("--eval", "exchange"), {"Eval": "Exchange"}, 3, [], said),
            (("--eval", "exchange"), {}, 3, [], said),
        ]:
            with Host(path, *words):
                client = Engine.connect(path, patience=20)
                client.configure(options)
                client.analyse("startpos", depth)
            with Host(path, *others):
                try:
                    client.analyse("startpos", depth)
                    raise Wrong(f"{words} and then {others}: no word of it")
                except Lacking as lacking:
                    want(str(lacking).startswith(f"{path}: {why}"), True, str(lacking))
                want(client.socket, None, "the session is ended")
        text = f"sfen {reports.HANGING} moves 5f5e 5a4b"
        with Host(path, "--depth", "2", "--eval", "exchange", "--lines", "3"):
            client = Engine.connect(path, patience=20)
            first = client.analyse(text)
            want([(line.depth, line.number) for line in first.lines], [(1, 1), (2, 1)], "one line a depth")
        with Host(path, "--eval", "exchange", "--depth", "4", "--lines", "2"):
            want(client.analyse(text), first, "to the depth of the first host")
        with Host(path, "--eval", "exchange", "--max-depth", "1"):
            want(client.analyse(text, 1).lines, first.lines[:1], "a depth that the third one has")
            why = "a depth is a whole number from 1 to 1, and not '2'"
            want(named(client.analyse, text), why, "the depth of the first host")
            client.close()


def host_without_several_lines():
    """One that shows one line is taken for one, and named for two."""
    with tempfile.TemporaryDirectory() as folder, socket.socket(socket.AF_UNIX) as host:
        path = os.path.join(folder, "socket")
        host.bind(path)
        host.listen()

        def answer():
            connection, _ = host.accept()
            with connection:
                connection.recv(100)
                connection.sendall(b"option name Depth type spin default 3 min 1 max 16\nusiok\n")
                seen.append(connection.recv(100))

        for lines in (1, 2):
            seen: list = []
            served = threading.Thread(target=answer)
            served.start()
            try:
                Engine.connect(path, patience=0, lines=lines).close()
                want(lines, 1, "a client of two lines")
            except Lacking as lacking:
                why = "an option with another name, or in other letters: 'MultiPV'; they are Depth"
                want((lines, str(lacking)), (2, f"{path}: {why}"), "what is lacking")
            served.join()
            want(seen, [b""], "what was sent")


def refused_positions():
    client = Engine.popen([PROGRAM])
    client.set_position(f"sfen {MATE_IN_ONE}")
    for text, why in [
        (f"sfen {IMPOSSIBLE}", "bad position 4"),
        ("startpos moves 7g7f 7g7f", "illegal move 2"),
    ]:
        try:
            client.set_position(text)
            raise Wrong(f"accepted: {text}")
        except Refused as refused:
            want(str(refused), f"{why}: {text}", "the reason")
    want(client.go(1).best, "G*5b", "the position before")
    client.close()


class Unsent(Engine):
    """A client that keeps the lines that it would send, of a host that has no legal move to answer."""

    def begin(self):
        self.sent, self.offered = [], options_of(USI.decode().splitlines())

    def send(self, line):
        self.sent.append(line)

    def read_reply(self, end=None):
        return "bestmove resign"


def named(call, *words):
    """What a call says of the slip in its words."""
    try:
        call(*words)
    except ValueError as why:
        return str(why)
    raise Wrong(f"taken: {words!r}")


NO_NUMBERS = (-1, 0, 3.0, True, "", "abc", "+3", "-3", " 3", "3\n", "3 3", "\u0663")


def slips_are_named_and_not_sent():
    client = Unsent()
    wrong = "an option with a value that it does not have"
    for value in (*NO_NUMBERS, 17, 99, "17", "1" * 5_000):
        why = f"is a whole number from 1 to 16, and not {value!r}"
        want(named(client.go, value), f"a depth {why}", "go")
        want(named(client.analyse, "startpos", value), f"a depth {why}", "a position and go")
        slip = "a number out of range" if str(value).isascii() and str(value).isdigit() else wrong
        want(named(client.configure, {"Depth": value}), f"{slip}: Depth {why}", "the option")
    for value in (*NO_NUMBERS, None, 9, 20):
        slip = "a number out of range" if str(value) in ("9", "20", "0") else wrong
        why = f"{slip}: MultiPV is a whole number from 1 to 8, and not {value!r}"
        want(named(client.configure, {"MultiPV": value}), why, "lines")
    for value in ("hand", "Hands", "Hand x", "", 1, None):
        why = f"{wrong}: Eval is Plain or Hand, and not {value!r}"
        want(named(client.configure, {"Eval": value}), why, "an evaluation")
    for name in ("depth", "Multipv", "USI_Hash", "Depth ", "", None):
        why = f"an option with another name, or in other letters: {name!r}; they are Depth, Eval, MultiPV"
        want(named(client.configure, {name: 3}), why, "another name")
    want(client.sent, [], "what was sent")
    want(client.options, {"MultiPV": 1}, "the options of a session that is begun anew")


def what_a_host_offers_is_taken():
    client = Unsent()
    offered = "option name Depth type spin default 4 min 1 max 4\noption name Eval type combo default Exchange"
    offered += " var Plain var Hand var Exchange\noption name Ponder type check default false"
    client.offered = options_of(offered.splitlines())
    want(client.offered, {"Depth": range(1, 5), "Eval": ("Plain", "Hand", "Exchange")}, "the options")
    client.configure({"Eval": "Exchange"})
    want(named(client.go, 5), "a depth is a whole number from 1 to 4, and not 5", "too deep")
    why = "an option with a value that it does not have: Eval is Plain, Hand or Exchange, and not 'exchange'"
    want(named(client.configure, {"Eval": "exchange"}), why, "an evaluation")
    want(client.sent, ["setoption name Eval value Exchange"], "what was sent")


def what_is_no_slip_is_sent():
    client = Unsent()
    for name, value in [
        ("Depth", 1),
        ("Depth", 16),
        ("Depth", "007"),
        ("MultiPV", 1),
        ("MultiPV", 8),
        ("Eval", "Plain"),
        ("Eval", "Hand"),
    ]:
        client.configure({name: value})
        want(client.sent.pop(), f"setoption name {name} value {value}", "an option")
    want(client.options, {"Depth": "007", "MultiPV": 8, "Eval": "Hand"}, "the options")
    for depth, line in [(None, "go"), (1, "go depth 1"), (16, "go depth 16"), ("9", "go depth 9")]:
        client.go(depth)
        want(client.sent.pop(), line, "a depth")
    want(client.sent, [], "what else was sent")


def a_depth_on_the_command_line_is_refused():
    for name in ("client.py", "grade.py"):
        for depth in ("0", "17", "abc", "3.0", "\u0663"):
            ended = subprocess.run(
                [sys.executable, "-B", os.path.join(EXAMPLES, name), f"--depth={depth}"],
                stdin=subprocess.DEVNULL,
                capture_output=True,
                timeout=120,
                check=False,
            )
            why = f"argument --depth: a depth is a whole number from 1 to 16, and not {depth!r}\n"
            want((ended.returncode, ended.stdout), (2, b""), f"{name} --depth={depth}")
            want(ended.stderr.decode().partition("error: ")[2], why, "the reason")


def run(name, *words, depth="3", sent=SFENS):
    """The status, the output and what is told at the end by an example over positions, by default the four."""
    ended = subprocess.run(
        [sys.executable, "-B", os.path.join(EXAMPLES, name), *words, "--depth", depth],
        input=sent if isinstance(sent, bytes) else sent.encode(),
        capture_output=True,
        timeout=120,
        check=False,
    )
    return ended.returncode, ended.stdout.decode(), re.sub(grades.RATES, "", ended.stderr.decode())


def grades_of_positions():
    words = ["--program", PROGRAM, "--eval", "Plain"]
    want(run("grade.py", *words), (1, GRADES, ""), "over a process")
    with tempfile.TemporaryDirectory() as folder:
        with Host(os.path.join(folder, "socket")) as host:
            Engine.connect(host.path, patience=20).close()
            want(run("grade.py", "--socket", host.path, "--eval", "Plain")[:2], (1, GRADES), "over a host")


def grades_of_several_lines():
    sent = f"position sfen {MATE_IN_ONE}\n{CORNERED}\n{MATED}\n{IMPOSSIBLE}\n"
    words = ["--program", PROGRAM, "--eval", "Plain", "--lines", "2"]
    for name, data in [
        ("UTF-8", sent.encode()),
        ("UTF-8 with its mark", b"\xef\xbb\xbf" + sent.encode()),
        ("UTF-16", sent.encode("utf-16")),
        ("Shift-JIS", f"# 局面\n{sent}".encode("cp932")),
        ("EUC-JP", f"# 局面\n{sent}".encode("euc_jp")),
    ]:
        want(run("grade.py", *words, depth="1", sent=data)[:2], (1, LINES), name)
    unread = "grade.py: <stdin>:1:3: neither UTF-8 nor UTF-16 nor Shift-JIS nor EUC-JP\n"
    want(run("grade.py", *words, sent=b"# \x81\xff\n"), (1, "", unread), "another encoding")


def host_setups_change_no_output():
    """Each script says the same of a host whose sessions begin with four lines, and with other depths and evaluations,
    as of one with the usual setup."""
    sent = f"startpos\n{MATE_IN_ONE}\nsfen {reports.HANGING}\n"
    game = f"sfen {reports.HANGING} moves {' '.join(reports.HANGING_MOVES)}\n"
    kinds = ("html", "svg", "kif", "json")
    seen = []
    with tempfile.TemporaryDirectory() as folder:
        path = os.path.join(folder, "socket")
        files = [os.path.join(folder, f"game.{kind}") for kind in kinds]
        reported = [word for kind, file in zip(kinds, files) for word in (f"--{kind}", file)]
        for words in (["--lines", "4", "--depth", "6", "--max-depth", "8"], []):
            with Host(path, "--eval", "exchange", *words):
                Engine.connect(path, patience=20).close()
                asked = ["--socket", path, "--eval", "Plain"]
                engine = ["--engine", PROGRAM, "--go", "depth 1"]
                outputs = [run("client.py", "--socket", path, "sfen " + reports.HANGING)]
                outputs += [run("grade.py", *asked), run("grade.py", *asked, "--lines", "2", sent=sent)]
                outputs += [run("compare.py", *asked, *engine), run("compare.py", *asked[:2], *engine, sent=sent)]
                outputs += [run("grade.py", *asked[:2], sent=sent)]
                outputs += [reports.analysed(game, *asked)]
                outputs += [reports.analysed(game, *asked[:2], "--jobs", "2", *reported)]
                for file in files:
                    with open(file, "rb") as report:
                        outputs.append(report.read())
            want([output[0] for output in outputs[:8]], [0, 1, 0, 0, 0, 0, 0, 0], f"{words}: {outputs[:8]}")
            want((outputs[1][1], outputs[3][1:]), (GRADES, (COMPARED, SUMMARY)), f"{words}")
            want((outputs[6][1], outputs[7][1]), tuple(map(reports.TABLES.get, ("Plain", "Exchange"))), f"{words}")
            seen.append(outputs)
    want(seen[0], seen[1], "the same of each host")


def positions_longer_than_a_line():
    """The longest line that a host takes is graded; with one more byte it is refused, and the next ones follow."""
    round_trip = " 4i4h 4a4b 4h4i 4b4a"
    moves = (round_trip * 3_275).strip()
    longest = f"position startpos {'moves':>{LINE_MAX - len(moves) - len('position startpos ') - 1}} {moves}"
    want(len(longest), LINE_MAX, "the longest line")
    longer = longest.replace("moves", " moves")
    words = ["--program", PROGRAM, "--eval", "Plain"]
    status, table, told = run("grade.py", *words, depth="1", sent=f"{longest}\n{longer}\nstartpos\n")
    rows = [row.rpartition("moves 4i")[2][-40:].split(",", 1)[1] for row in table.splitlines()[1:]]
    want((status, rows), (1, ["1,1g1f,0,,1g1f,", "1,,,,,line too long", "1,1g1f,0,,1g1f,"]), told)
    status, table, told = run("compare.py", "--engine", PROGRAM, *words, sent=f"{longer}\nstartpos\n")
    want((status, table.splitlines()[1].endswith(",,,,,,line too long")), (0, True), told)
    want(len(table.splitlines()), 3, "the rows")
    status, table, told = reports.analysed(f"{longest}{round_trip}\n", "--program", PROGRAM)
    column = len(longest) - len(moves) + 10_000 * len("4i4h ") + 1
    why = f"analyse.py: <stdin>:1:{column}: a game of more than 10,000 moves"
    want((status, table, told), (1, "", [why]), "a game")


def engine_that_is_mated():
    """`mate 0` is a mated side."""

    class Mated:
        def __init__(self, *replies):
            self.replies = replies

        def send(self, line):
            del line

        def read_until(self, word):
            return [*self.replies, word]

    for replies, lines in [
        (["info depth 0 score mate 0"], [("", None, -1)]),
        (["info depth 1 score mate 3 pv 1g1f"], [("1g1f", None, 1)]),
        (["info depth 1 score mate -2 pv 1g1f"], [("1g1f", None, -1)]),
        (["info depth 1 score cp 600 pv 1g1f", "info depth 2 score cp 0 pv 1g1f"], [("1g1f", 0, None)]),
        ([], []),
    ]:
        want(asked(Mated(*replies), "startpos", 2), lines, f"{replies}")


def grades_of_a_program_that_sleeps():
    with tempfile.TemporaryDirectory() as folder:
        fake = reports.make_fake(folder, most=1, then="time.sleep(600)")
        words = ["--program", fake, "--timeout", "10", "--jobs", "1"]
        status, table, told = run("grade.py", *words, sent="startpos\nstartpos\n")
        want((status, table), (2, "sfen,depth,best,cp,mate,pv,error\nstartpos,3,1g1f,0,,1g1f,\n"), "the rows")
        want(told.splitlines()[-1], f"grade.py: {fake}: no answer within 10 s", "the program is named")
        client = Engine.popen([fake], timeout=5)
        try:
            client.go(1)
            client.go(1)
            raise Wrong("an answer of a program that sleeps")
        except TooSlow:
            want(client.program, None, "the program is ended")


def moves_of_another_engine():
    words = ["--engine", PROGRAM, "--go", "depth 1", "--program", PROGRAM, "--eval", "Plain"]
    want(run("compare.py", *words), (0, COMPARED, SUMMARY), "the moves")


def another_engine_that_dies():
    with tempfile.TemporaryDirectory() as folder:
        fake = reports.make_fake(folder, most=1, then="sys.exit(3)")
        words = ["--engine", fake, "--program", PROGRAM, "--eval", "Plain"]
        status, table, told = run("compare.py", *words, sent="startpos\nstartpos\n")
        want((status, len(table.splitlines())), (2, 2), "the rows")
        want(told, f"compare.py: the other engine, {fake}: it has ended with status 3\n", "whose fault it is")


METRIC = r"# HELP (usi_host_\w+) [A-Z].*\.\n# TYPE \1 (gauge|counter)\n\1(\{.*\})? (\d+)\n"


def want_metrics(told, wanted):
    """Looks whether each metric has its help, its type and a number, counters have their ending, some have these numbers,
    and Prometheus's own tool has nothing to say, where it is installed."""
    found = list(re.finditer(METRIC, told.decode()))
    want("".join(match[0] for match in found), told.decode(), "nothing else")
    numbers = {match[1].removeprefix("usi_host_"): int(match[4]) for match in found}
    want((len(found), len(numbers)), (28, 28), "metrics")
    want([match[1] for match in found if match[1].endswith("_total") != (match[2] == "counter")], [], "endings")
    want({name: numbers[name] for name in wanted}, wanted, "numbers")
    if promtool := shutil.which("promtool"):
        checked = subprocess.run([promtool, "check", "metrics"], input=told, capture_output=True, timeout=120, check=False)
        want((checked.returncode, checked.stdout, checked.stderr), (0, b"", b""), "promtool check metrics")


def table_of_a_status():
    with tempfile.TemporaryDirectory() as folder:
        path = os.path.join(folder, "status")
        script = [sys.executable, "-B", os.path.join(EXAMPLES, "status.py")]
        gone = subprocess.run([*script, path], capture_output=True, timeout=120, check=False)
        want((gone.returncode, gone.stdout), (1, b""), "no host")
        with Host(os.path.join(folder, "socket"), "--status", path, "--slots", "7") as host:
            want_opening(Engine.connect(host.path, patience=20))
            ended = subprocess.run([*script, path], capture_output=True, timeout=120, check=False)
            rows = [line.rsplit(None, 1) for line in ended.stdout.decode().splitlines()]
            seen = {label.strip(): number for label, number in rows}
            want((ended.returncode, len(rows)), (0, 30), ended.stderr.decode())
            want([seen["sessions at most"], seen["connections accepted"]], ["7", "1"], "the table")
            want([seen["greatest depth"], seen["evaluation at first"]], ["16", "plain"], "the table")
            told = subprocess.run([*script, "--prometheus", path], capture_output=True, timeout=120, check=True).stdout
            want_metrics(told, {"sessions_limit": 7, "connections_total": 1, "bestmoves_total": 1, "depth_limit_plies": 16})
            output = os.path.join(folder, "usi_host.prom")
            for _ in range(2):
                subprocess.run([*script, "--prometheus", "--output", output, path], timeout=120, check=True)
            with open(output, "rb") as file:
                want_metrics(file.read(), {"sessions_limit": 7, "connections_total": 1})
            names = sorted(name for name in os.listdir(folder) if name.startswith("usi_host"))
            want(names, ["usi_host.prom"], "nothing is left beside the file")
            nowhere = [*script, "--output", os.path.join(folder, "none", "x"), path]
            ended = subprocess.run(nowhere, capture_output=True, timeout=120, check=False)
            want((ended.returncode, b"No such file" in ended.stderr), (1, True), f"no folder: {ended.stderr}")
            watch = [*script, "--watch", path]
            with subprocess.Popen(watch, stdout=subprocess.PIPE) as watching:
                lines = [watching.stdout.readline() for _ in range(61)]
                want((lines[0], lines[30]), (lines[31], b"\n"), "a second table")
                watching.terminate()


if __name__ == "__main__":
    sys.exit(
        run_all(
            "examples",
            [
                client_of_a_process,
                client_before_its_host,
                client_without_a_host,
                client_of_a_full_host,
                client_of_a_host_that_is_full_at_once,
                client_that_connects_again,
                client_that_finds_another_host,
                host_without_several_lines,
                refused_positions,
                slips_are_named_and_not_sent,
                what_is_no_slip_is_sent,
                what_a_host_offers_is_taken,
                a_depth_on_the_command_line_is_refused,
                grades_of_positions,
                grades_of_several_lines,
                host_setups_change_no_output,
                positions_longer_than_a_line,
                engine_that_is_mated,
                grades_of_a_program_that_sleeps,
                moves_of_another_engine,
                another_engine_that_dies,
                table_of_a_status,
                *clients.CHECKS,
                *grades.CHECKS,
                *faults.CHECKS,
                *records.CHECKS,
                *reports.CHECKS,
                *problems.CHECKS,
            ],
        )
    )
