#!/usr/bin/env python3
"""Times the built program as a host on a Unix socket, beside as many processes of the program itself,
and of Fairy-Stockfish where it is installed. Its one argument is the program; without it, the program
that `make build` makes. Its output is tables, and no test."""

import contextlib
import os
import resource
import selectors
import shutil
import socket
import statistics
import subprocess
import sys
import tempfile
import time

from report import TOP, plot, put

PROGRAM = os.path.join(TOP, "crates", "usi_host", "out", "usi_host")
FAIRY = shutil.which("fairy-stockfish", path=os.environ.get("PATH", "") + ":/usr/games")
PATIENCE = 300

# What was printed, for docs/BENCHMARKS.md.
PRINTED = []


def tell(text=""):
    print(text, flush=True)
    PRINTED.append(text)


def memory(pids):
    """The memory of processes, in MB, with shared pages counted once."""
    total = 0
    for pid in pids:
        with open(f"/proc/{pid}/smaps_rollup", encoding="ascii") as lines:
            total += sum(int(line.split()[1]) for line in lines if line.startswith("Pss:"))
    return total / 1024


def seconds(pid):
    """The processor time of a process so far."""
    with open(f"/proc/{pid}/schedstat", encoding="ascii") as line:
        return int(line.read().split()[0]) / 1e9


@contextlib.contextmanager
def host(*words):
    """A host on a socket: its path and its process."""
    with tempfile.TemporaryDirectory(prefix="usi_bench.") as place:
        path = os.path.join(place, "socket")
        running = subprocess.Popen([PROGRAM, "serve", "--socket", path, *words])
        while not os.path.exists(path):
            time.sleep(0.01)
        time.sleep(0.1)
        try:
            yield path, running.pid
        finally:
            running.terminate()
            running.wait()


def connect(path):
    client = socket.socket(socket.AF_UNIX, socket.SOCK_STREAM)
    client.settimeout(PATIENCE)
    client.connect(path)
    return client


def answered(ends, ask, last=b"bestmove", times=1):
    """Asks at every end, and waits until each has given so many last lines. An end is a file to write
    to and one to read from. Gives the seconds until all had, and those until each one's first byte."""
    selector = selectors.DefaultSelector()
    seen = {}
    first = {}
    began = time.monotonic()
    for number, (writing, reading) in enumerate(ends):
        os.write(writing, ask)
        seen[reading] = b""
        selector.register(reading, selectors.EVENT_READ, number)
    left = len(ends)
    while left:
        events = selector.select(PATIENCE)
        if not events:
            raise TimeoutError
        for key, _ in events:
            piece = os.read(key.fd, 65_536)
            if not piece:
                raise EOFError
            first.setdefault(key.data, time.monotonic() - began)
            seen[key.fd] += piece
            if seen[key.fd].count(b"\n" + last) >= times and seen[key.fd].endswith(b"\n"):
                selector.unregister(key.fd)
                left -= 1
    selector.close()
    return time.monotonic() - began, list(first.values())


def row(name, took, firsts, megabytes):
    middle = statistics.median(firsts) * 1000
    tell(f"{name:<34}{took * 1000:>9.0f}{middle:>11.1f}{max(firsts) * 1000:>11.1f}{megabytes:>9.1f}")


def clients_of_one_host(count):
    with host("--slots", "1024") as (path, pid):
        with contextlib.ExitStack() as stack:
            clients = [stack.enter_context(connect(path)) for _ in range(count)]
            time.sleep(0.2)
            ends = [(client.fileno(), client.fileno()) for client in clients]
            took, firsts = answered(ends, b"go depth 3\n")
            row(f"one host, {count:,} clients", took, firsts, memory([pid]))
            return took * 1000


def processes(count, name, words, before=b"", ready=None):
    running = [
        subprocess.Popen(words, stdin=subprocess.PIPE, stdout=subprocess.PIPE, bufsize=0)
        for _ in range(count)
    ]
    ends = [(one.stdin.fileno(), one.stdout.fileno()) for one in running]
    try:
        answered(ends, before + b"isready\n", last=ready or b"readyok")
        took, firsts = answered(ends, b"go depth 3\n")
        row(f"{count} processes of {name}", took, firsts, memory([one.pid for one in running]))
        return took * 1000
    finally:
        for one in running:
            one.kill()
            one.communicate()


def table_of_one_question():
    tell("`go depth 3` from the opening position, asked by all at once")
    tell(f"{'':<34}{'all, ms':>9}{'first, ms':>11}{'worst, ms':>11}{'MB':>9}")
    curves = {"one host": [(count, clients_of_one_host(count)) for count in (1, 4, 16, 64, 256, 1_024)]}
    few = (1, 4, 16, 64)
    curves["processes"] = [
        (count, processes(count, "this program", [PROGRAM], before=b"usi\n")) for count in few
    ]
    if FAIRY:
        before = b"uci\nsetoption name UCI_Variant value shogi\nposition startpos\n"
        curves["fairy-stockfish"] = [
            (count, processes(count, "fairy-stockfish", [FAIRY], before=before)) for count in few
        ]
    plot(
        "clients",
        "Until all have their answer to `go depth 3`",
        ("clients", True),
        "milliseconds",
        curves,
        (1, 4, 16, 64, 256, 1_024),
    )
    tell()


def busy_clients():
    """A table of one entry helps nobody, so that each search makes the same steps."""
    tell("searches at depth 3, by a host with a table of one entry")
    tell(f"{'busy clients':<14}{'searches':>10}{'a second':>10}{'processor ms each':>19}")
    for count, each in ((1, 256), (64, 8), (1_024, 1)):
        with host("--slots", "1024", "--entries", "1") as (path, pid):
            with contextlib.ExitStack() as stack:
                clients = [stack.enter_context(connect(path)) for _ in range(count)]
                time.sleep(0.2)
                ends = [(client.fileno(), client.fileno()) for client in clients]
                before = seconds(pid)
                took, _ = answered(ends, b"go depth 3\n" * each, times=each)
                used = seconds(pid) - before
                made = count * each
                tell(f"{count:<14}{made:>10}{made / took:>10.1f}{used / made * 1000:>19.2f}")
    tell()


def idle_clients():
    """Hosts with and without idle clients are asked by turns, since the machine may do other work too."""
    tell("processor ms of one client's `go depth 4`, with a table of one entry, beside idle clients")
    tell(f"{'idle clients':<14}{'least of 25':>14}{'median of 25':>14}")
    with contextlib.ExitStack() as stack:
        asked = []
        for count in (0, 1_023):
            path, pid = stack.enter_context(host("--slots", "1024", "--entries", "1"))
            for _ in range(count):
                stack.enter_context(connect(path))
            client = stack.enter_context(connect(path)).fileno()
            asked.append((count, pid, client, []))
        for _ in range(25):
            for _, pid, client, times in asked:
                before = seconds(pid)
                answered([(client, client)], b"go depth 4\n")
                times.append((seconds(pid) - before) * 1000)
        for count, _, _, times in asked:
            tell(f"{count:<14}{min(times):>14.1f}{statistics.median(times):>14.1f}")
    tell()


def a_busy_host():
    tell("what a client of a busy host waits for the first byte of `usi`, in ms")
    tell(f"{'busy clients':<14}{'median of 64':>14}{'worst of 64':>14}")
    for count in (0, 1, 64):
        with host("--slots", "1024") as (path, _), contextlib.ExitStack() as stack:
            for _ in range(count):
                busy = stack.enter_context(connect(path))
                busy.sendall(b"go depth 16\n")
            time.sleep(0.3)
            waits = []
            for _ in range(64):
                began = time.monotonic()
                with connect(path) as client:
                    client.sendall(b"usi\n")
                    client.recv(1)
                    waits.append((time.monotonic() - began) * 1000)
            tell(f"{count:<14}{statistics.median(waits):>14.2f}{max(waits):>14.2f}")
    tell()


def what_a_session_costs():
    tell("memory of a host with a table of 4,096 entries, in MB")
    with host("--slots", "1024") as (path, pid), contextlib.ExitStack() as stack:
        tell(f"{'no client':<34}{memory([pid]):>9.1f}")
        clients = [stack.enter_context(connect(path)) for _ in range(1_024)]
        time.sleep(0.3)
        tell(f"{'1,024 idle clients':<34}{memory([pid]):>9.1f}")
        for client in clients:
            client.sendall(b"go depth 16\n")
        time.sleep(3)
        tell(f"{'1,024 clients that search':<34}{memory([pid]):>9.1f}")
    with host("--entries", "1000000") as (path, pid):
        tell(f"{'no client, 1,000,000 entries':<34}{memory([pid]):>9.1f}")
    tell()


def main():
    global PROGRAM
    if len(sys.argv) > 1:
        PROGRAM = os.path.abspath(sys.argv[1])
    _, hard = resource.getrlimit(resource.RLIMIT_NOFILE)
    resource.setrlimit(resource.RLIMIT_NOFILE, (min(4_096, hard), hard))
    table_of_one_question()
    busy_clients()
    idle_clients()
    a_busy_host()
    what_a_session_costs()
    put("clients", "```text\n" + "\n".join(PRINTED).strip() + "\n```")


if __name__ == "__main__":
    main()
