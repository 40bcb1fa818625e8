#!/usr/bin/env python3
"""Makes the sdist and the wheel of the Python package, installs the wheel in an environment of its own, and runs each command
against a real host: its output is that of the script in `share/examples`. mypy finds no fault in the package, and sees its
types, where it is installed. Its one argument is the program. What lacks its tools is left out by name. Its last line is
`N passed, M failed`."""

import importlib.util
import os
import re
import shutil
import subprocess
import sys
import tarfile
import tempfile
import zipfile

from checks import PROGRAM, TOP, Wrong, run_all, want
from clients import MATE_IN_ONE, Served

EXAMPLES = os.path.join(TOP, "share", "examples")
PATIENCE = 300
SFENS = f"startpos\n{MATE_IN_ONE}\n"
# What each command is called with beside a host's socket, and what it reads.
COMMANDS = {
    "grade": (["--socket", "{socket}", "--depth", "2", "--lines", "2"], SFENS),
    "compare": (["--socket", "{socket}", "--depth", "2", "--engine", "usi_host", "--go", "depth 1"], SFENS),
    "analyse": (["--socket", "{socket}", "--depth", "4", "--html", "{page}"], "7g7f 3c3d 8h2b+"),
    "tsume": (["--plies", "3", "--html", "{page}"], f"{MATE_IN_ONE}\n"),
}
# Two users: one whom mypy has nothing to say to, and one who takes a move for a number.
USER = """from shogi_host import Answer, Engine, MateIn
from shogi_host.records import Board, read_games


def mates(engine: Engine, position: str) -> list[int]:
    answer: Answer = engine.analyse(position, depth=6, lines=4)
    return [line.score.plies for line in answer.last if isinstance(line.score, MateIn)]


def first() -> str:
    return Board.of(read_games(b"7g7f")[0].start).sfen()
"""
WRONG = USER + "\n\nnumber: int = Engine.popen(['usi_host']).analyse('startpos').best\n"


# The example of the guide, and the form of the lines that it prints: two moves, and then a line for each depth.
with open(os.path.join(TOP, "docs", "GUIDE.md"), encoding="utf-8") as page:
    GUIDE = page.read().partition("```python\n")[2].partition("```")[0]
SCORED = r"Centipawns\(points=-?\d+\)"
SHOWN = [rf"\S+ \[\(1, {SCORED}, \(.*\)\), \(2, {SCORED}, \(.*\)\)\]", *(rf"{depth} {SCORED} \(.*\)" for depth in range(1, 5))]


def run(*words, **how):
    """The output of a command that has to succeed."""
    ended = subprocess.run(words, capture_output=True, text=True, timeout=PATIENCE, check=False, **how)
    want(ended.returncode, 0, f"{words}: {ended.stdout[-1_000:]}{ended.stderr[-1_000:]}")
    return ended.stdout


class Made:
    """The sdist and the wheel, and an environment with the wheel."""

    def __init__(self, folder):
        self.folder = folder
        run(os.path.join(TOP, "check", "package.sh"), folder)
        names = sorted(os.listdir(folder))
        want(names, ["shogi_host-0.1.0-py3-none-any.whl", "shogi_host-0.1.0.tar.gz"], "what is made")
        self.wheel, self.sdist = (os.path.join(folder, name) for name in names)
        self.bin = os.path.join(folder, "environment", "bin")
        run(sys.executable, "-m", "venv", os.path.dirname(self.bin))
        run(os.path.join(self.bin, "pip"), "install", "--no-index", "--disable-pip-version-check", self.wheel)


def made():
    """What is made, once."""
    if not hasattr(made, "kept"):
        made.folder = tempfile.TemporaryDirectory()
        made.kept = Made(made.folder.name)
    return made.kept


def both_have_each_file():
    """Each file of the package is in the sdist and in the wheel as it stands, and the wheel has no other one."""
    kept = run("git", "ls-files", "-z", "shogi_host", cwd=EXAMPLES).split("\0")[:-1]
    with zipfile.ZipFile(made().wheel) as wheel, tarfile.open(made().sdist) as sdist:
        names = [name for name in wheel.namelist() if ".dist-info/" not in name]
        want(sorted(names), sorted(kept), "the files of the wheel")
        for name in kept:
            with open(os.path.join(EXAMPLES, name), "rb") as file:
                data = file.read()
            want(wheel.read(name) == data, True, f"{name} of the wheel")
            want(sdist.extractfile(f"shogi_host-0.1.0/{name}").read() == data, True, f"{name} of the sdist")
        about = wheel.read("shogi_host-0.1.0.dist-info/METADATA").decode()
    want(["Requires-Dist" in about, "\nVersion: 0.1.0\n" in about], [False, True], "what it says of itself")


def found_in(folder):
    """An environment in which programs of this folder are found first."""
    return {**os.environ, "LC_ALL": "C.UTF-8", "PATH": f"{folder}:{os.environ['PATH']}"}


def outputs(words, sent, path, folder):
    """What a command prints, and the page that it writes."""
    page = os.path.join(folder, "page.html")
    words = [word.format(socket=path, page=page) for word in words]
    seen = [run(*words, input=sent, cwd=folder, env=found_in(folder))]
    if page in words:
        with open(page, encoding="utf-8") as file:
            seen.append(file.read())
        os.unlink(page)
    return seen


def commands_do_what_scripts_do():
    with tempfile.TemporaryDirectory() as folder, Served("--status", os.path.join(folder, "status")) as path:
        os.symlink(PROGRAM, os.path.join(folder, "usi_host"))
        for name, (words, sent) in COMMANDS.items():
            seen = outputs([os.path.join(made().bin, f"shogi-{name}"), *words], sent, path, folder)
            script = [sys.executable, "-B", os.path.join(EXAMPLES, f"{name}.py")]
            want(seen == outputs([*script, *words], sent, path, folder), True, f"shogi-{name}")
            want(len(seen[0].splitlines()) > 1 or name == "tsume", True, f"shogi-{name}: {seen[0]}")
        python = os.path.join(made().bin, "python")
        words = ["--socket", path, "--depth", "1", MATE_IN_ONE]
        want(run(python, "-m", "shogi_host", *words, cwd=folder), "evaluation Plain\ndepth 1: mate 1, G*5b\nG*5b\n", "asked")
        table = run(os.path.join(made().bin, "shogi-status"), os.path.join(folder, "status"))
        [answers] = [int(row.split()[-1]) for row in table.splitlines() if row.startswith("bestmove")]
        want(answers >= 2 * (2 + 4 + 4) + 1, True, f"the answers that the host counts: {table}")
        shown = run(python, "-c", GUIDE, cwd=folder, env=found_in(folder))
        want(bool(re.fullmatch("\n".join([*SHOWN, ""]), shown)), True, f"the example of the guide: {shown}")
    for name in (*COMMANDS, "status"):
        ended = subprocess.run([os.path.join(made().bin, f"shogi-{name}"), "--no-such"], capture_output=True, check=False)
        want((ended.returncode, f"usage: shogi-{name} ".encode() in ended.stderr), (2, True), f"shogi-{name} --no-such")


def types_are_checked():
    mypy = ["mypy", "--strict", "--cache-dir", os.devnull]
    run(*mypy, "shogi_host", cwd=EXAMPLES)
    for text, status in ((USER, 0), (WRONG, 1)):
        with tempfile.TemporaryDirectory() as folder:
            with open(os.path.join(folder, "user.py"), "w", encoding="ascii") as file:
                file.write(text)
            words = [*mypy, "--python-executable", os.path.join(made().bin, "python"), "user.py"]
            ended = subprocess.run(words, capture_output=True, text=True, cwd=folder, timeout=PATIENCE, check=False)
            if (ended.returncode, ended.stdout.count("error:")) != (status, status):
                raise Wrong(f"mypy: {ended.stdout}{ended.stderr}")


def main():
    checks = [both_have_each_file, commands_do_what_scripts_do, types_are_checked]
    if shutil.which("mypy") is None:
        print("package types_are_checked ... left out: there is no mypy")
        checks.remove(types_are_checked)
    with tempfile.TemporaryDirectory() as folder:
        tried = subprocess.run([os.path.join(TOP, "check", "package.sh"), folder], capture_output=True, text=True, check=False)
    if tried.returncode == 3:
        print(f"package ... left out: {tried.stderr.strip()}")
        checks = []
    elif importlib.util.find_spec("ensurepip") is None:
        print("package ... left out: this Python has no ensurepip (Debian's python3-venv)")
        checks = []
    return run_all("package", checks)


if __name__ == "__main__":
    sys.exit(main())
