"""Checks of the client of the Python package, `shogi_host.Engine`, over a process and over a host's socket: typed answers,
lines as they come, searches that are left, and errors by class."""

import dataclasses
import os
import subprocess
import sys
import tempfile
import threading

from checks import PROGRAM, Wrong, want
from reports import EXAMPLES, make_fake

sys.path.insert(0, EXAMPLES)

from shogi_host import Answer, Centipawns, Engine, EngineError, Gone, Line, MateIn, NotStarted  # noqa: E402
from shogi_host import Refused, Solver, TooSlow  # noqa: E402

MATE_IN_ONE = "4k4/9/4P4/9/9/9/9/9/9 b G 1"
# What two moves are worth there, by hand: the mate, and a promotion beside a gold in hand.
TWO = (Line(1, 1, MateIn(1), ("G*5b",)), Line(1, 2, Centipawns(1200), ("5c5b+",)))
# An engine that says depth 2 only once there is a file.
SLOW = """#!{python}
import os, sys, time
for line in sys.stdin:
    if line.startswith("usi"):
        print("option name Depth type spin default 3 min 1 max 16\\nusiok", flush=True)
    if line.startswith("isready"):
        print("readyok", flush=True)
    if line.startswith("go"):
        print("info depth 1 score cp 0 pv 1g1f", flush=True)
        while not os.path.exists({file!r}):
            time.sleep(0.02)
        print("info depth 2 score mate -4 pv 7g7f 3c3d\\nbestmove 7g7f ponder 3c3d", flush=True)
"""


class Served:
    """A host in a folder of its own; its words follow."""

    def __init__(self, *words):
        self.words = words

    def __enter__(self):
        self.folder = tempfile.TemporaryDirectory()
        path = os.path.join(self.folder.name, "socket")
        self.process = subprocess.Popen([PROGRAM, "serve", "--socket", path, *self.words])
        return path

    def __exit__(self, *_):
        self.process.terminate()
        self.process.wait()
        self.folder.cleanup()


def both_ways():
    """Engines over a process, and over the socket of a host whose sessions begin otherwise."""
    with Engine.popen([PROGRAM]) as engine:
        yield engine
    with Served("--lines", "4", "--depth", "2") as path, Engine.connect(path) as engine:
        yield engine


def wanted(error, call, *words, **named):
    """The error of this class that the call raises."""
    try:
        call(*words, **named)
    except error as why:
        return why
    raise Wrong(f"no {error.__name__}")


def answers_are_typed():
    for engine in both_ways():
        engine.configure({"Eval": "Plain"})
        for position in (MATE_IN_ONE, f"sfen {MATE_IN_ONE}", f"position sfen {MATE_IN_ONE}\n"):
            answer = engine.analyse(position, depth=1, lines=2)
            want(answer, Answer("G*5b", None, TWO), position)
        want((answer.last, answer.line(1), answer.line(1, 2)), (TWO, *TWO), "by number")
        want([(line.cp, line.mate) for line in TWO], [(None, 1), (1200, None)], "a value or a mate")
        # The lines are those of one question.
        want(engine.analyse(MATE_IN_ONE, depth=1).lines, TWO[:1], "one line again")
        engine.configure({"MultiPV": 2})
        want(engine.analyse(MATE_IN_ONE, depth=1).lines, TWO, "two lines by the option")
        want(engine.analyse(MATE_IN_ONE, 1, 1).lines, TWO[:1], "one line for once")
        want(engine.analyse(MATE_IN_ONE, 1).lines, TWO, "two lines again")
        mated = engine.analyse("4k4/4G4/4P4/9/9/9/9/9/9 w - 1", 1)
        want((mated, mated.last, mated.line(1)), (Answer("resign", None, ()), (), None), "no legal move")
        for value in (answer, TWO[0], *(line.score for line in TWO)):
            name = dataclasses.fields(value)[0].name
            wanted(dataclasses.FrozenInstanceError, setattr, value, name, None)
    solver = Solver(PROGRAM, 3)
    mate = solver.ask(MATE_IN_ONE)
    solver.close()
    want((mate.plies, mate.line, mate.keys), (1, ("G*5b",), (("G*5b",),)), "a mate by checks")
    wanted(dataclasses.FrozenInstanceError, setattr, mate, "line", ())


def lines_come_as_they_are_found():
    with tempfile.TemporaryDirectory() as folder:
        file, path = os.path.join(folder, "go"), os.path.join(folder, "engine")
        with open(path, "w", encoding="ascii") as program:
            program.write(SLOW.format(python=sys.executable, file=file))
        os.chmod(path, 0o755)
        first, second = Line(1, 1, Centipawns(0), ("1g1f",)), Line(2, 1, MateIn(-4), ("7g7f", "3c3d"))
        with Engine.popen(path, timeout=60) as engine:
            search = engine.analysis("startpos", depth=2)
            want((next(search), search.is_over), (first, False), "the first line, before the second is said")
            with open(file, "w", encoding="ascii"):
                pass
            want(list(search), [second], "the second line")
            want((search.is_over, search.answer()), (True, Answer("7g7f", "3c3d", (first, second))), "the answer")
            want(list(search), [], "nothing behind it")
            os.unlink(file)
            threading.Timer(0.3, lambda: os.mkdir(file)).start()
            with engine.analysis("startpos", depth=2) as search:
                want([*search], [first, second], "a second search")
            os.rmdir(file)
            engine.timeout = 0.3
            search = engine.analysis("startpos", depth=2)
            want(next(search), first, "a line in time")
            running = engine.program
            for _ in range(2):
                why = wanted(TooSlow, next, search)
                want(str(why), f"{path}: no answer within 0.3 s", "the second line")
            want(running.process.poll() is not None, True, "the program is ended")
            want(str(wanted(Gone, engine.analyse, "startpos", 1)), f"{path}: the session is ended", "no session")
    for engine in both_ways():
        seen = []
        for line in engine.analysis("startpos", depth=3):
            seen.append(line)
        want([line.pv for line in seen], [("1g1f",), ("1g1f", "1a1b"), ("7g7f", "4c4d", "8h4d")], "of a real one")
        want(tuple(seen), engine.analyse("startpos", depth=3).lines, "the lines of the answer")


def searches_that_are_left():
    """The next question is answered in a session that is begun anew, with the options that were set."""
    for engine in both_ways():
        engine.configure({"MultiPV": 2, "Eval": "Plain"})
        for leave in (lambda search: search.close(), lambda search: None):
            before = engine.program
            search = engine.analysis("startpos", depth=16)
            want((next(search).depth, next(search).number), (1, 2), "its first lines")
            leave(search)
            want(engine.analyse(MATE_IN_ONE, 1).lines, TWO, "the next answer")
            wanted(Gone, next, search)
            wanted(Gone, search.answer)
            if before is not None:
                want(before.process.poll() is not None, True, "the program before is ended")
        engine.set_position(MATE_IN_ONE)
        for _ in engine.search(16):
            break
        want(engine.go(1).lines, TWO, "the position that was set")
        search = engine.search(1)
        want(search.answer().lines, TWO, "a search to its end")
        search.close()
        want(engine.go(1).best, "G*5b", "closed behind its end, it ends nothing")


def errors_have_classes():
    for engine in both_ways():
        why = "an option with another name, or in other letters: 'Hash'; they are Depth, Eval, MultiPV"
        want(str(wanted(ValueError, engine.configure, {"MultiPV": 3, "Hash": 1})), why, "an option")
        want(engine.options, {"MultiPV": 1}, "none of them is set")
        for lines in (0, 9, -1, "x"):
            wanted(ValueError, engine.analyse, MATE_IN_ONE, 1, lines)
            wanted(ValueError, engine.analysis, MATE_IN_ONE, 1, lines)
        wanted(ValueError, engine.analysis, MATE_IN_ONE, 17)
        want(engine.position, "startpos", "nothing was sent")
        refused = wanted(Refused, engine.analysis, "9/9/9/9/9/9/9/9/9 b 19P 1", 1)
        want((isinstance(refused, EngineError), isinstance(refused, Gone)), (True, False), "a refusal")
        want(engine.analyse(MATE_IN_ONE, 1).lines, TWO[:1], "the session goes on")
        engine.close()
        for question in (engine.go, engine.analyse, engine.analysis):
            why = wanted(Gone, question, *(("startpos",) if question != engine.go else ()))
            want(str(why), f"{engine.name}: the session is ended", "closed")
    for error in (ZeroDivisionError, KeyboardInterrupt):
        engine = Engine.popen([PROGRAM])
        running = engine.program.process
        try:
            with engine:
                raise error
        except error:
            want(running.poll() is not None, True, "the block's end ends the program")
    nothing = wanted(NotStarted, Engine.popen, "/no/such/program")
    want((str(nothing), isinstance(nothing, Gone)), ("/no/such/program: No such file or directory", True), "no program")
    with tempfile.TemporaryDirectory() as folder:
        with Engine.popen([make_fake(folder, most=1, then="sys.exit(3)")]) as engine:
            engine.go(1)
            search = engine.search(1)
            for _ in range(2):
                want(str(wanted(Gone, search.answer)).endswith("it has ended with status 3"), True, "its status")
            wanted(Gone, engine.go, 1)


CHECKS = [answers_are_typed, lines_come_as_they_are_found, searches_that_are_left, errors_have_classes]
