#!/usr/bin/env python3
"""Runs the files of `share/examples/batch` and of `deploy` that spread work over machines, on this one: a worker is killed
in the middle, and the output is, byte for byte, that of one grade.py. Its one argument is the program. What is not
installed is left out by name: GNU parallel, Dask's `distributed`, Slurm, HAProxy, openssl. Its last line is `N passed, M
failed`."""

import contextlib
import os
import random
import shutil
import signal
import socket
import ssl
import subprocess
import sys
import tempfile
import time

from checks import IS_UNPROVED, PROGRAM, TOP, Wrong, run_all, want

EXAMPLES = os.path.join(TOP, "share", "examples")
BATCH, DEPLOY, GRADE = os.path.join(EXAMPLES, "batch"), os.path.join(TOP, "deploy"), os.path.join(EXAMPLES, "grade.py")
sys.path.insert(0, EXAMPLES)
sys.dont_write_bytecode = True

from shogi_host import Engine, Gone  # noqa: E402
from shogi_host.records import Board  # noqa: E402
from shogi_host.records.board import name_of  # noqa: E402

PATIENCE, MANY_PATIENCE = 120, 3_600
# So many positions of random games, none longer than that, are graded in each way at this depth.
MANY, GAME_MAX, MANY_DEPTH = 10_000, 120, "1" if IS_UNPROVED else "2"

# The program; the first one that is asked for its third search kills a process so many steps above it, and none after it.
KILLER = """#!{python} -B
import os, signal, subprocess, sys

def parent(number):
    with open(f"/proc/{{number}}/stat") as file:
        return int(file.read().rpartition(") ")[2].split()[1])

program = subprocess.Popen([{program!r}, *sys.argv[1:]], stdin=subprocess.PIPE, bufsize=0)
asked = 0
for line in sys.stdin.buffer:
    program.stdin.write(line)
    asked += line.startswith(b"go")
    if asked == 3:
        try:
            os.mkdir({killed!r})
        except FileExistsError:
            continue
        at = os.getpid()
        for _ in range({steps}):
            at = parent(at)
        os.kill(at, signal.SIGKILL)
program.stdin.close()
sys.exit(program.wait())
"""

with open(os.path.join(TOP, "bench", "games.txt"), encoding="ascii") as games:
    MOVES = [game.split() for game in games.read().splitlines()]
SFENS = [f"startpos moves {' '.join(moves[:plies])}" for plies in range(1, 30, 6) for moves in MOVES]
SFENS[5] = "9/9/9/9/9/9/9/9/9 b 19P 1"


class Place:
    """A folder with positions, their grades by one grade.py, and a program that kills a worker once."""

    def __init__(self, folder, steps=1, sfens=SFENS, depth="1"):
        self.folder = folder
        self.killed, self.program = self.path("killed"), self.path("program")
        with open(self.program, "w", encoding="utf-8") as file:
            file.write(KILLER.format(python=sys.executable, program=PROGRAM, killed=self.killed, steps=steps))
        os.chmod(self.program, 0o755)
        self.positions = self.path("positions.txt")
        with open(self.positions, "w", encoding="ascii") as file:
            file.write("".join(f"{sfen}\n" for sfen in sfens))
        self.words = ["--depth", depth, "--eval", "plain", "--program", self.program]
        one = [sys.executable, "-B", GRADE, "--jobs", "1", "--format", "jsonl", *self.words[:-1], PROGRAM, self.positions]
        ended = subprocess.run(one, capture_output=True, timeout=MANY_PATIENCE, check=False)
        refused = int(SFENS[5] in sfens)
        want((ended.returncode, ended.stdout.count(b"\n")), (refused, len(sfens)), ended.stderr.decode())
        self.wanted = ended.stdout

    def path(self, name):
        """A path in the folder."""
        return os.path.join(self.folder, name)

    def run(self, *words, check=True, **variables):
        """Runs a command in the folder; its output."""
        environment = {**os.environ, "GRADE": GRADE, "PYTHONDONTWRITEBYTECODE": "1", **variables}
        how = {"cwd": self.folder, "env": environment, "capture_output": True, "timeout": MANY_PATIENCE}
        ended = subprocess.run(words, check=False, **how)
        if check and ended.returncode not in (0, 1):
            raise Wrong(f"{words}: status {ended.returncode}, {ended.stderr.decode()}")
        return ended.stdout

    def want_killed(self):
        """Looks whether a worker was killed, and forgets it."""
        want(os.path.isdir(self.killed), True, "a worker was killed")
        os.rmdir(self.killed)


@contextlib.contextmanager
def place(*words):
    with tempfile.TemporaryDirectory() as folder:
        yield Place(folder, *words)


def blocks_by_parallel():
    """One job of two is killed; with a second run nothing is left to do; and blocks through pipes, without a folder."""
    with place() as here:
        script = os.path.join(BATCH, "batch_parallel.sh")
        for run in range(2):
            out = here.run(script, here.positions, "graded", *here.words, PARALLEL="-j2", BLOCK="9")
            want(out == here.wanted, True, f"run {run}")
            if run == 0:
                here.want_killed()
        want(os.path.isdir(here.killed), False, "nothing is graded twice")
        os.mkdir(here.killed)
        # Machines are reached by a command of ours in place of ssh: it drops the machine's name.
        reach = here.path("reach")
        with open(reach, "w", encoding="ascii") as file:
            file.write('#!/bin/sh\necho "$1" >>machines\nshift\n[ "$1" != -- ] || shift\nexec sh -c "$*"\n')
        os.chmod(reach, 0o755)
        machines = f"--ssh {reach} --sshlogin 1/one,1/two --wd {here.folder}"
        out = here.run(script, here.positions, "again", *here.words, PARALLEL=machines, BLOCK="9", PARALLEL_SSH=reach)
        want(out == here.wanted, True, "by two machines")
        with open(here.path("machines"), encoding="ascii") as file:
            want({"one", "two"} <= set(file.read().split()), True, "both machines had work")
        line = 'parallel --will-cite --pipe -N 9 -k -j2 "$GRADE" --jobs 1 --format jsonl "$@" < positions.txt'
        want(here.run("sh", "-c", line, "sh", *here.words) == here.wanted, True, "through pipes")


def python_with_dask():
    """A Python that has Dask's `distributed`, or None."""
    for python in ("/usr/bin/python3", sys.executable):
        with contextlib.suppress(OSError):
            if subprocess.run([python, "-c", "import distributed"], capture_output=True, check=False).returncode == 0:
                return python
    return None


def blocks_by_dask():
    """One worker of two, a process, is killed in the middle of a block."""
    with place(2) as here:
        script = os.path.join(BATCH, "batch_dask.py")
        words = ["--workers", "2", "--block", "9", here.positions, "--", *here.words]
        out = here.run(python_with_dask(), "-B", script, *words)
        want(out == here.wanted, True, "the grades")
        here.want_killed()
        missing = [*words[:-1], here.path("none")]
        want(here.run(python_with_dask(), "-B", script, *missing, check=False), b"", "a program that is not there")


def parts_by_variables_of_slurm():
    """Tasks as Slurm starts them, by its variables set here; one is killed, and started anew."""
    with place() as here:
        script = os.path.join(BATCH, "batch.sbatch")
        array = {"SLURM_ARRAY_TASK_MIN": "5", "SLURM_ARRAY_TASK_COUNT": "4", "SLURM_CPUS_PER_TASK": "1"}
        for task in ("7", "5", "5", "8", "6", "7"):
            here.run("bash", script, here.positions, "graded", *here.words, check=False, SLURM_ARRAY_TASK_ID=task, **array)
        here.want_killed()
        want(here.run("sh", "-c", "cat graded/*.jsonl") == here.wanted, True, "the parts in a row")
        sizes = [os.path.getsize(here.path(f"graded/00000{part}.txt")) for part in range(4)]
        want((0 in sizes, sum(sizes)), (False, os.path.getsize(here.positions)), "each has its part")


def wait_for(ask, what):
    """Waits until something is so."""
    end = time.monotonic() + PATIENCE
    while not ask():
        want(time.monotonic() < end, True, what)
        time.sleep(0.1)


def command(path, line):
    """What HAProxy answers to a line of its runtime socket."""
    with socket.socket(socket.AF_UNIX) as asked:
        asked.settimeout(PATIENCE)
        asked.connect(path)
        asked.sendall(line.encode() + b"\n")
        told = b""
        while piece := asked.recv(65_536):
            told += piece
    return told.decode()


class Machines:
    """Two machines, each with a host, and a front: on loopback addresses, each in a folder of its own."""

    def __init__(self, here):
        self.here, self.running, self.addresses = here, {}, {}
        here.run(os.path.join(DEPLOY, "certificates.sh"), "certificates", "one", "two")
        for number, name in enumerate(("one", "two"), 1):
            with socket.socket() as free:
                free.bind((f"127.0.0.{number}", 0))
                self.addresses[name] = f"127.0.0.{number}:{free.getsockname()[1]}"

    def start(self, name, *words, **variables):
        """Starts a program in the folder of a machine."""
        folder = self.here.path(name.split()[0])
        environment = {**os.environ, **variables}
        self.running[name] = subprocess.Popen(words, cwd=folder, env=environment, stderr=subprocess.DEVNULL)

    def begin(self):
        """Starts all of it, and waits until both machines are well."""
        for name in ("one", "two", "front"):
            folder = self.here.path(name)
            os.mkdir(folder)
            kept = "front.pem" if name == "front" else "machine.pem"
            shutil.copy(self.here.path(f"certificates/{name}.pem"), os.path.join(folder, kept))
            shutil.copy(self.here.path("certificates/ca.crt"), folder)
            if name != "front":
                self.start(f"{name} host", PROGRAM, "serve", "--socket", "one.socket", "--eval", "exchange")
                wait_for(lambda at=folder: os.path.exists(os.path.join(at, "one.socket")), f"the host of {name}")
                self.balance(name)
        variables = {"ONE": self.addresses["one"], "TWO": self.addresses["two"]}
        self.start("front", "haproxy", "-f", os.path.join(DEPLOY, "haproxy-front.cfg"), **variables)
        wait_for(lambda: os.path.exists(self.here.path("front/front.socket")), "the front")
        for name in ("one", "two"):
            self.wait_until(name, "UP")

    def balance(self, name):
        """Starts the balancer of a machine."""
        self.start(name, "haproxy", "-f", os.path.join(DEPLOY, "haproxy-machine.cfg"), ADDRESS=self.addresses[name])

    def column(self, machine, name):
        """A number or word of the front's table for a machine."""
        head, *rows = command(self.here.path("front/front-stats.socket"), "show stat").splitlines()
        at = head.removeprefix("# ").split(",").index(name)
        return next(row.split(",")[at] for row in rows if row.startswith(f"machines,{machine},"))

    def wait_until(self, machine, state):
        """Waits until the front has a machine in this state."""
        wait_for(lambda: self.column(machine, "status").startswith(state), f"{machine} is {state}")

    def end(self):
        """Ends all of it."""
        for process in self.running.values():
            process.kill()
            process.wait()


def answer_over_tls(address, *certificate, ca):
    """What a machine answers to `isready` by TLS, with a certificate or without one; nothing where it refuses."""
    context = ssl.create_default_context(cafile=ca)
    context.check_hostname = False
    if certificate:
        context.load_cert_chain(*certificate)
    host, port = address.split(":")
    with contextlib.suppress(OSError), socket.create_connection((host, int(port)), PATIENCE) as plain:
        with context.wrap_socket(plain) as secure:
            secure.sendall(b"isready\n")
            return secure.recv(100)
    return b""


def sessions_over_machines():
    """Grades over two machines are those of one program; a machine that is killed, one that is drained, and clients
    without the right certificate."""
    with place() as here:
        machines = Machines(here)
        try:
            machines.begin()
            front = here.path("front/front.socket")
            words = ["--socket", front, "--jobs", "3", "--format", "jsonl", *here.words[:4], here.positions]
            want(here.run(sys.executable, "-B", GRADE, *words) == here.wanted, True, "the grades")
            want([int(machines.column(name, "stot")) > 0 for name in ("one", "two")], [True, True], "both had sessions")
            ca, own = here.path("certificates/ca.crt"), here.path("certificates/front.pem")
            here.run(os.path.join(DEPLOY, "certificates.sh"), "others", "one")
            for name, address in machines.addresses.items():
                want(answer_over_tls(address, own, ca=ca), b"readyok\n", f"{name}: with a certificate")
                want(answer_over_tls(address, ca=ca), b"", f"{name}: without a certificate")
                for other in ("certificates/two.pem", "others/front.pem"):
                    want(answer_over_tls(address, here.path(other), ca=ca), b"", f"{name}: with {other}")
                host, port = address.split(":")
                with socket.create_connection((host, int(port)), PATIENCE) as plain:
                    plain.sendall(b"isready\n")
                    with contextlib.suppress(ConnectionError):
                        want(b"ready" in plain.recv(100), False, f"{name}: without TLS")
            kill_and_drain(machines, front)
        finally:
            machines.end()


def kill_and_drain(machines, front):
    """A session goes on at the other machine where its own is killed, and none comes to one that is drained."""
    client = Engine.connect(front, patience=PATIENCE)
    first = client.analyse("startpos", 1)
    mine = next(name for name in ("one", "two") if machines.column(name, "scur") == "1")
    other = "two" if mine == "one" else "one"
    machines.running[mine].kill()
    machines.running[mine].wait()
    want(client.analyse("startpos", 1), first, "the answer of the other machine")
    machines.wait_until(mine, "DOWN")
    want(machines.column(other, "scur"), "1", "the session")
    machines.balance(mine)
    machines.wait_until(mine, "UP")
    stats = machines.here.path("front/front-stats.socket")
    command(stats, f"set server machines/{other} state drain")
    begun = machines.column(other, "stot")
    for _ in range(4):
        with contextlib.closing(Engine.connect(front, patience=PATIENCE)) as another:
            want(another.analyse("startpos", 1), first, "the answer beside a drained machine")
    want(client.analyse("startpos", 1), first, "the session that was there")
    want((machines.column(other, "stot"), machines.column(other, "scur")), (begun, "1"), "no new session")
    command(stats, f"set server machines/{other} state ready")
    client.close()
    # Named by the other's address, a machine is not the one of its certificate.
    turned = {"ONE": machines.addresses["two"], "TWO": machines.addresses["one"]}
    machines.running["front"].kill()
    machines.running["front"].wait()
    os.unlink(stats)
    machines.start("front", "haproxy", "-f", os.path.join(DEPLOY, "haproxy-front.cfg"), **turned)
    wait_for(lambda: os.path.exists(stats), "another front")
    for name in ("one", "two"):
        machines.wait_until(name, "DOWN")
    with contextlib.suppress(Gone):
        Engine.connect(front, patience=0)
        raise Wrong("a session with a machine of another name")


def a_move(choice, board):
    """A legal move by chance; None where a hundred tries found none. It drops no pawn with check, which might mate."""
    empty = [(file, rank) for file in range(1, 10) for rank in range(1, 10) if (file, rank) not in board.squares]
    own = sorted(square for square, (black, _) in board.squares.items() if black == board.black)
    for _ in range(100):
        begins = choice.choice([*own, *(role for role, _ in board.hand(board.black))])
        if isinstance(begins, str):
            move = f"{begins}*{name_of(choice.choice(empty))}"
        else:
            to = choice.choice([*board.targets(begins), begins])
            move = name_of(begins) + name_of(to) + choice.choice(("", "+"))
        if board.is_legal(move):
            after = board.copy()
            after.play(move)
            if begins != "P" or not after.is_checked(after.black):
                return move
    return None


def random_sfens(seed=1):
    """The positions of random legal games, the same at each run."""
    choice, sfens = random.Random(seed), []
    while len(sfens) < MANY:
        board = Board.of("startpos")
        for _ in range(GAME_MAX):
            move = a_move(choice, board)
            if move is None:
                break
            board.play(move)
            sfens.append(board.sfen())
    return sfens[:MANY]


def many_positions_by_each_way():
    """One process, four, GNU parallel, Dask and sessions over two machines by TLS give the same bytes."""
    with place(1, random_sfens(), MANY_DEPTH) as here:
        words = [*here.words[:-1], PROGRAM]
        grade = [sys.executable, "-B", GRADE, "--format", "jsonl"]
        want(here.run(*grade, "--jobs", "4", *words, here.positions) == here.wanted, True, "four processes")
        script = os.path.join(BATCH, "batch_parallel.sh")
        out = here.run(script, here.positions, "graded", *words, PARALLEL="-j4")
        want(out == here.wanted, True, "parallel")
        script = os.path.join(BATCH, "batch_dask.py")
        out = here.run(python_with_dask(), "-B", script, "--workers", "4", here.positions, "--", *words)
        want(out == here.wanted, True, "Dask")
        machines = Machines(here)
        try:
            machines.begin()
            words = ["--socket", here.path("front/front.socket"), "--jobs", "4", *here.words[:4], here.positions]
            want(here.run(*grade, *words) == here.wanted, True, "over machines")
        finally:
            machines.end()


def idle_clients_are_closed():
    """By `timeout client`: one that sends nothing for so long, and one whose search takes longer once it has its answer;
    one that asks now and then is kept."""
    with place() as here:
        with open(os.path.join(DEPLOY, "haproxy.cfg"), encoding="ascii") as file:
            kept = file.read()
        want(kept.count("timeout client 1d"), 1, "the line of the recipe")
        with open(here.path("haproxy.cfg"), "w", encoding="ascii") as file:
            file.write(kept.replace("timeout client 1d", "timeout client 1s"))
        running = []
        try:
            for name in ("one", "two"):
                running.append(subprocess.Popen([PROGRAM, "serve", "--socket", f"{name}.socket"], cwd=here.folder))
            running.append(subprocess.Popen(["haproxy", "-f", "haproxy.cfg"], cwd=here.folder, stderr=subprocess.DEVNULL))
            front = here.path("front.socket")
            wait_for(lambda: os.path.exists(front), "the balancer")
            Engine.connect(front, patience=PATIENCE).close()
            for asks, sent, wanted in [
                (0, b"", b""),
                (0, b"isready\n", b"readyok\n"),
                (5, b"isready\n", b"readyok\n"),
                (0, f"position {SFENS[-1]}\ngo depth 6\n".encode(), b"bestmove "),
            ]:
                with socket.socket(socket.AF_UNIX) as client:
                    client.settimeout(PATIENCE)
                    client.connect(front)
                    began = time.monotonic()
                    for _ in range(asks):
                        client.sendall(sent)
                        want(client.recv(100), wanted, "kept")
                        time.sleep(0.5)
                    client.sendall(sent)
                    told = b""
                    while piece := client.recv(65_536):
                        told += piece
                    lived = time.monotonic() - began
                want(told.splitlines()[-1:] == [] if not wanted else wanted in told, True, f"{sent}: {told}")
                want(lived >= 0.5 * asks + 0.9, True, f"{sent}: closed after {lived} s")
        finally:
            for process in running:
                process.kill()
                process.wait()


def tools():
    """The checks, and what each one needs that is not there."""
    yield blocks_by_parallel, "" if shutil.which("parallel") else "parallel"
    yield blocks_by_dask, "" if python_with_dask() else "python3-distributed"
    yield parts_by_variables_of_slurm, ""
    missing = [name for name in ("haproxy", "openssl") if not shutil.which(name, path=f"{os.environ['PATH']}:/usr/sbin")]
    yield sessions_over_machines, " and ".join(missing)
    yield idle_clients_are_closed, " and ".join(missing[: "haproxy" in missing])
    missing += [name for name in ("parallel",) if not shutil.which(name)]
    missing += [] if python_with_dask() else ["python3-distributed"]
    yield many_positions_by_each_way, " and ".join(missing)


def main():
    signal.signal(signal.SIGTERM, lambda number, frame: sys.exit(128 + number))
    os.environ["PATH"] += ":/usr/sbin"
    checks = []
    for check, missing in tools():
        if missing:
            print(f"batch {check.__name__} ... left out: {missing} is not installed")
        else:
            checks.append(check)
    return run_all("batch", checks)


if __name__ == "__main__":
    sys.exit(main())
