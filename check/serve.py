#!/usr/bin/env python3
"""Runs the built program as a host on a Unix socket, with friendly and hostile clients, and looks at
what each of them is sent, and at the process afterwards: that it still answers, that its memory is
flat, and that no descriptor leaked. Every socket lies in a temporary folder. Its one argument is the
program; without it, the program that `make build` makes. Its last line is `N passed, M failed`."""

import contextlib
import json
import multiprocessing
import os
import random
import re
import resource
import select
import selectors
import shutil
import signal
import socket
import subprocess
import sys
import tempfile
import time

import refusals
from checks import DEPTH_ONE, DEPTH_THREE, PROGRAM, TOP, USI, Wrong, run_all, usi_of, want

# The longest that one step may take, in seconds.
PATIENCE = 40

GO_DEPTH_ONE = DEPTH_ONE + b"bestmove 1g1f\n"
HOST_FULL = b"info string host full\n"
TOO_LONG = b"info string line too long\n"
SOCKET_FAILED = b"usi_host: socket failed\n"
SOCKET_TAKEN = SOCKET_FAILED[:-1] + b": a process listens at it; end it, or take another path\n"
SOCKET_LEFT = SOCKET_FAILED[:-1] + b": nobody listens at it; remove it, and start again\n"


def wait_until(test, what):
    """Waits until the test holds, and no longer than a step may take."""
    until = time.monotonic() + PATIENCE
    while not test():
        if time.monotonic() > until:
            raise Wrong(f"not in time: {what}")
        time.sleep(0.01)


@contextlib.contextmanager
def folder():
    """A folder for a socket, which others may enter."""
    place = tempfile.mkdtemp(prefix="usi_host.")
    try:
        os.chmod(place, 0o755)
        yield place
    finally:
        shutil.rmtree(place, ignore_errors=True)


def files(most):
    """Sets how many files a new process may have open."""
    return lambda: resource.setrlimit(resource.RLIMIT_NOFILE, (most, most))


@contextlib.contextmanager
def many_files(most):
    """Lets this process have so many files open."""
    soft, hard = resource.getrlimit(resource.RLIMIT_NOFILE)
    if hard != resource.RLIM_INFINITY and hard < most:
        raise Wrong(f"this check needs {most} open files, and may have {hard}")
    resource.setrlimit(resource.RLIMIT_NOFILE, (max(soft, most), hard))
    try:
        yield
    finally:
        resource.setrlimit(resource.RLIMIT_NOFILE, (soft, hard))


class Host:
    """The program as a host on a socket."""

    def __init__(self, place, *words, **how):
        self.path = os.path.join(place, "socket")
        self.running = subprocess.Popen(
            [PROGRAM, "serve", "--socket", self.path, *words],
            stdin=subprocess.DEVNULL,
            stdout=subprocess.PIPE,
            stderr=subprocess.PIPE,
            **how,
        )
        wait_until(
            lambda: os.path.exists(self.path) or self.running.poll() is not None, "the socket"
        )

    def connect(self):
        client = socket.socket(socket.AF_UNIX, socket.SOCK_STREAM)
        client.settimeout(PATIENCE)
        until = time.monotonic() + PATIENCE
        while True:
            try:
                client.connect(self.path)
                return client
            except (ConnectionRefusedError, BlockingIOError):
                # The file is there a little before somebody listens.
                if time.monotonic() > until:
                    raise
                time.sleep(0.01)

    def ask(self, lines):
        """What a client is sent that sends these bytes and ends its side."""
        with self.connect() as client:
            client.sendall(lines)
            client.shutdown(socket.SHUT_WR)
            return to_the_end(client)

    def descriptors(self):
        return len(os.listdir(f"/proc/{self.running.pid}/fd"))

    def memory(self):
        """The resident memory, in bytes."""
        with open(f"/proc/{self.running.pid}/statm", encoding="ascii") as numbers:
            return int(numbers.read().split()[1]) * os.sysconf("SC_PAGE_SIZE")

    def seconds(self):
        """The processor time so far."""
        with open(f"/proc/{self.running.pid}/stat", encoding="ascii") as line:
            numbers = line.read().rsplit(")", 1)[1].split()
        return (int(numbers[11]) + int(numbers[12])) / os.sysconf("SC_CLK_TCK")

    def is_running(self):
        return self.running.poll() is None

    def stop(self):
        """Ends it, if it runs, and gives what it wrote."""
        if self.is_running():
            self.running.terminate()
        return self.running.communicate(timeout=PATIENCE)


@contextlib.contextmanager
def host(*words, **how):
    with folder() as place:
        running = Host(place, *words, **how)
        try:
            yield running
        finally:
            running.stop()


def to_the_end(client):
    """What a client is sent until the end. A host that closes with bytes unread resets."""
    seen = b""
    while True:
        try:
            piece = client.recv(65_536)
        except ConnectionResetError:
            return seen
        if not piece:
            return seen
        seen += piece


def exactly(client, size):
    """The next bytes that a client is sent, so many, or fewer at the end."""
    seen = b""
    while len(seen) < size:
        piece = client.recv(size - len(seen))
        if not piece:
            break
        seen += piece
    return seen


def on_standard_input(lines):
    """What one session over standard input and output answers."""
    ended = subprocess.run(
        [PROGRAM, "stdio"], input=lines, stdout=subprocess.PIPE, timeout=PATIENCE, check=True
    )
    return ended.stdout


def cut(rng, sent):
    """The bytes in pieces of random sizes."""
    pieces = []
    while sent:
        size = rng.choice((1, 2, 3, 7, 30, 200, 5_000))
        pieces.append(sent[:size])
        sent = sent[size:]
    return pieces


LINES = (
    b"usi\n",
    b"isready\n",
    b"usinewgame\r\n",
    b"position startpos\n",
    b"position startpos moves 7g7f 3c3d 8h2b+ 3a2b\n",
    b"position startpos moves 7g7f 7g7f\n",
    b"position sfen 4k4/9/4P4/9/9/9/9/9/9 b G 1\n",
    b"position sfen 8k/6G2/7G1/9/9/9/9/9/9 w - 1\n",
    b"position sfen x\n",
    b"setoption name Depth value 1\n",
    b"setoption name Depth value 2\n",
    b"setoption name USI_Hash value 256\n",
    b"setoption name Eval value Hand\n",
    b"setoption name Eval value Plain\n",
    b"setoption name Eval value hand\n",
    b"setoption name MultiPV value 3\n",
    b"setoption name MultiPV value 1\n",
    b"go depth 1\n",
    b"go depth 2\n",
    b"go\n",
    b"go infinite depth 1\n",
    b"go ponder depth 2\n",
    b"go mate infinite\n",
    b"ponderhit\n",
    b"stop\n",
    b"gameover win\n",
    b"\r\n",
    b"what is this\n",
    b"\xff\xfe " + b"y" * 5_000 + b"\n",
)


def dialogue(rng):
    """Random lines; the last one may be cut short, or be `quit`."""
    sent = b"".join(rng.choice(LINES) for _ in range(rng.randint(1, 30)))
    return sent + rng.choice((b"", b"go depth", b"quit\n"))


def converse(clients):
    """Sends each client's pieces as the host takes them, ends its side, and reads to the end."""
    selector = selectors.DefaultSelector()
    seen = {}
    left = {}
    for client, pieces in clients:
        client.setblocking(False)
        seen[client] = b""
        left[client] = list(pieces)
        selector.register(client, selectors.EVENT_READ | selectors.EVENT_WRITE)
    until = time.monotonic() + PATIENCE
    open_clients = len(clients)
    while open_clients:
        if time.monotonic() > until:
            raise Wrong(f"{open_clients} clients have no end in time")
        for key, events in selector.select(1):
            client = key.fileobj
            if events & selectors.EVENT_WRITE:
                try:
                    if left[client]:
                        size = client.send(left[client][0])
                        left[client][0] = left[client][0][size:]
                        if not left[client][0]:
                            left[client].pop(0)
                    else:
                        selector.modify(client, selectors.EVENT_READ)
                        client.shutdown(socket.SHUT_WR)
                except OSError:
                    selector.modify(client, selectors.EVENT_READ)
            if events & selectors.EVENT_READ:
                try:
                    piece = client.recv(65_536)
                except ConnectionResetError:
                    piece = b""
                except BlockingIOError:
                    continue
                seen[client] += piece
                if not piece:
                    selector.unregister(client)
                    open_clients -= 1
    selector.close()
    return [seen[client] for client, _ in clients]


def each_of_64_clients_gets_its_own_answers():
    """Whatever the pieces, the slices and the table: what one session alone would answer."""
    rng = random.Random(26)
    sent = [dialogue(rng) for _ in range(64)]
    answers = [on_standard_input(lines) for lines in sent]
    for words in (("--slice", "7", "--entries", "50"), ()):
        with host(*words) as running, contextlib.ExitStack() as stack:
            clients = [
                (stack.enter_context(running.connect()), cut(rng, lines)) for lines in sent
            ]
            for number, seen in enumerate(converse(clients)):
                want(seen, answers[number], f"client {number}, which sent {sent[number]!r}")


def an_end_after_go_loses_no_answer():
    with host("--slice", "10") as running, contextlib.ExitStack() as stack:
        clients = []
        for _ in range(20):
            client = stack.enter_context(running.connect())
            client.sendall(b"go\n")
            client.shutdown(socket.SHUT_WR)
            clients.append(client)
        for client in clients:
            want(to_the_end(client), DEPTH_THREE, "a client that ended its side")
        want(running.ask(b""), b"", "a client that sends nothing")


def lines_of_their_own():
    """Each client has as many lines as it set, whatever the others have."""
    with host("--slice", "7") as running, contextlib.ExitStack() as stack:
        clients = [stack.enter_context(running.connect()) for _ in range(8)]
        for number, client in enumerate(clients):
            client.sendall(b"setoption name MultiPV value %d\ngo depth 1\n" % (number + 1))
            client.shutdown(socket.SHUT_WR)
        # No first move gains or loses anything: the eight of least code.
        moves = (b"1g1f", b"1i1h", b"2g2f", b"2h1h", b"2h3h", b"2h4h", b"2h5h", b"2h6h")
        want(to_the_end(clients[0]), GO_DEPTH_ONE, "a client with one line")
        for number in range(1, 8):
            lines = b"".join(
                b"info depth 1 multipv %d score cp 0 pv %s\n" % (place + 1, moves[place])
                for place in range(number + 1)
            )
            answer = lines + b"bestmove 1g1f\n"
            want(to_the_end(clients[number]), answer, f"a client with {number + 1} lines")


# ---- hostile clients, each on a host that goes on afterwards


def never_reads(running):
    """It sends until no more is taken; the others are served, and nothing spins."""
    with running.connect() as client:
        client.setblocking(False)
        sent = 0
        quiet_since = time.monotonic()
        while time.monotonic() < quiet_since + 0.3 and sent < 50_000_000:
            try:
                sent += client.send((b"usi\n" * 4_096)[sent % 4 :])
                quiet_since = time.monotonic()
            except BlockingIOError:
                time.sleep(0.01)
        if sent >= 50_000_000:
            raise Wrong("it takes bytes without end from a client that never reads")
        want(running.ask(b"isready\n"), b"readyok\n", "another client")
        before = running.seconds()
        time.sleep(0.3)
        if running.seconds() - before > 0.15:
            raise Wrong("it spins while a client does not read")
        client.settimeout(PATIENCE)
        client.shutdown(socket.SHUT_WR)
        want(to_the_end(client) == USI * (sent // 4), True, "all answers, once it reads")


def sends_no_line_end(running):
    with running.connect() as client:
        with contextlib.suppress(BrokenPipeError, ConnectionResetError):
            for _ in range(17):
                client.sendall(b"x" * 4_096)
        want(to_the_end(client), TOO_LONG, "17 pieces without a line's end")


KILLED = """
import socket, sys, time
client = socket.socket(socket.AF_UNIX)
client.connect(sys.argv[1])
client.sendall(b"go depth 6\\n")
client.recv(10)
print("searching", flush=True)
time.sleep(60)
"""


def is_killed_in_mid_search(running):
    with subprocess.Popen(
        [sys.executable, "-c", KILLED, running.path], stdout=subprocess.PIPE
    ) as child:
        want(child.stdout.readline(), b"searching\n", "the first line of an answer")
        child.kill()


def resets(running):
    """It closes while bytes for it are unread."""
    for lines in (b"usi\n" * 100, b"usi\ngo\nusi\n"):
        with running.connect() as client:
            client.sendall(lines)
            want(select.select([client], [], [], PATIENCE)[0], [client], "an answer")


def comes_and_goes(running):
    for _ in range(50):
        running.connect().close()


def ends_its_side(running):
    clients = [running.connect() for _ in range(20)]
    for client in clients:
        client.sendall(b"go depth 1")
        client.shutdown(socket.SHUT_WR)
    for client in clients:
        want(to_the_end(client), b"", "a line without its end")
        client.close()


HOSTILE = (
    never_reads,
    sends_no_line_end,
    is_killed_in_mid_search,
    resets,
    comes_and_goes,
    ends_its_side,
)


def is_at_rest(running, descriptors):
    wait_until(lambda: running.descriptors() == descriptors, "each descriptor is closed")
    want(running.ask(b"go\n"), DEPTH_THREE, "a client afterwards")
    wait_until(lambda: running.descriptors() == descriptors, "the last descriptor is closed")


def at_first(running):
    """How many descriptors it has after a first client, whose end comes a little before its descriptor is closed."""
    descriptors = running.descriptors()
    want(running.ask(b"isready\n"), b"readyok\n", "a first client")
    wait_until(lambda: running.descriptors() <= descriptors, "its descriptor is closed")
    return descriptors


def hostile_clients_leave_nothing_behind():
    """The table is small, so that it is full after the first round."""
    with host("--entries", "256") as running:
        descriptors = at_first(running)
        memory = 0
        for number in range(4):
            for hostile in HOSTILE:
                hostile(running)
                is_at_rest(running, descriptors)
            if number == 0:
                memory = running.memory()
        grown = running.memory() - memory
        if grown > 1 << 20:
            raise Wrong(f"three more rounds take {grown} bytes more")
        want(running.is_running(), True, "the process")


def a_full_host_turns_away_who_comes_then():
    with many_files(2_200), host("--slots", "1024", preexec_fn=files(1_100)) as running:
        descriptors = at_first(running)
        for _ in range(2):
            clients = [running.connect() for _ in range(1_030)]
            for client in clients[1_024:]:
                want(to_the_end(client), HOST_FULL, "a client of a full host")
            for client in clients[:1_024]:
                client.sendall(b"go depth 1\n")
            for client in clients[:1_024]:
                want(exactly(client, len(GO_DEPTH_ONE)), GO_DEPTH_ONE, "a client with a slot")
            for client in clients:
                client.close()
            is_at_rest(running, descriptors)


def to_its_end(client):
    """What a client is sent until the end, which is no reset."""
    seen = b""
    while piece := client.recv(65_536):
        seen += piece
    return seen


def who_is_turned_away_is_told():
    """Whatever each has sent by then, it is sent its line and an end, and a write of it does not fail."""
    with host("--slots", "1") as running, running.connect() as first:
        first.sendall(b"isready\n")
        want(exactly(first, 8), b"readyok\n", "the one with the slot")
        descriptors = running.descriptors()
        for sent in (b"", b"usi\n", b"usi\n" * 16_384):
            running.running.send_signal(signal.SIGSTOP)
            clients = [running.connect() for _ in range(100)]
            for client in clients:
                client.sendall(sent)
            running.running.send_signal(signal.SIGCONT)
            for client in clients:
                want(to_its_end(client), HOST_FULL, f"one that has sent {len(sent)} bytes")
                client.close()
        late = [running.connect() for _ in range(40)]
        time.sleep(0.2)
        for client in late:
            client.sendall(b"usi\n" * 1_000)
        for client in late:
            want(to_its_end(client), HOST_FULL, "one that sends after it was shut")
            client.close()
        wait_until(lambda: running.descriptors() == descriptors, "each descriptor is closed")


def who_never_ends_holds_nothing():
    """Whether it was turned away or has sent `quit`, it is let go after a while, and nothing spins meanwhile."""
    with host("--slots", "1") as running, contextlib.ExitStack() as stack:
        descriptors = at_first(running)
        first = stack.enter_context(running.connect())
        first.sendall(b"isready\n")
        want(exactly(first, 8), b"readyok\n", "the one with the slot")
        clients = [stack.enter_context(running.connect()) for _ in range(300)]
        for client in clients:
            want(exactly(client, len(HOST_FULL)), HOST_FULL, "one that is turned away")
        first.sendall(b"quit\nusi\n")
        want(to_its_end(first), b"", "one that has sent `quit`")
        # 256 that linger, and one that is shut just now.
        if running.descriptors() > descriptors + 257:
            raise Wrong(f"it holds {running.descriptors()} descriptors")
        does_not_spin(running, "streams that linger")
        wait_until(lambda: running.descriptors() == descriptors, "each descriptor is closed")


def who_lingers_gives_way():
    """Those who were turned away and do not end keep no descriptor from who comes then."""
    with host("--slots", "3", preexec_fn=files(16)) as running, contextlib.ExitStack() as stack:
        held = [stack.enter_context(running.connect()) for _ in range(3)]
        for client in held:
            client.sendall(b"isready\n")
            want(exactly(client, 8), b"readyok\n", "one with a slot")
        for _ in range(40):
            client = stack.enter_context(running.connect())
            want(exactly(client, len(HOST_FULL)), HOST_FULL, "one that is turned away")
        held[0].close()
        wait_until(lambda: running.ask(b"isready\n") == b"readyok\n", "the slot is free")


def too_many_open_files_are_waited_for():
    """With 16 descriptors some clients wait in the queue; they are served as others go."""
    with host(preexec_fn=files(16)) as running:
        clients = [running.connect() for _ in range(30)]
        for client in clients:
            client.sendall(b"isready\n")
        want(exactly(clients[0], 8), b"readyok\n", "the first client")
        time.sleep(0.3)
        before = running.seconds()
        time.sleep(0.5)
        if running.seconds() - before > 0.25:
            raise Wrong("it spins while it may open no more files")
        for client in clients[1:]:
            clients[0].close()
            clients[0] = client
            want(exactly(client, 8), b"readyok\n", "a client that waited")
        clients[0].close()
        want(running.ask(b"go\n"), DEPTH_THREE, "a client afterwards")


# ---- attacks, and what they cost the others

# The longest that a client may wait for `readyok` meanwhile, in seconds, on a machine that does other work too.
MOST = 0.5

# What the table answers once it was asked: eight lines of depth 8 between two kings.
LONG_ANSWER = (
    b"setoption name Depth value 8\nsetoption name MultiPV value 8\n"
    b"position sfen 9/9/4k4/9/9/9/4K4/9/9 b -\n"
)

# The longest line of moves: 65,535 bytes before its LF at most.
LONG_POSITION = b"position startpos moves" + b" 5i5h 5a5b 5h5i 5b5a" * 3_275 + b"\n"


def pour(path, count, first, lines, reads):
    """So many clients send the first bytes, and then the lines again and again."""
    clients = []
    for _ in range(count):
        client = socket.socket(socket.AF_UNIX)
        client.connect(path)
        client.sendall(first)
        client.setblocking(False)
        clients.append((client, [0]))
    while True:
        for client, sent in clients:
            with contextlib.suppress(BlockingIOError):
                sent[0] += client.send(lines[sent[0] % len(lines) :])
            with contextlib.suppress(BlockingIOError):
                while reads and client.recv(65_536):
                    pass
        time.sleep(0.001)


def flood(path):
    """Connects and goes, as fast as it may."""
    while True:
        client = socket.socket(socket.AF_UNIX)
        client.setblocking(False)
        with contextlib.suppress(OSError):
            client.connect(path)
        client.close()


@contextlib.contextmanager
def attack(function, *words):
    """A process of its own that attacks the host until the end."""
    child = multiprocessing.get_context("fork").Process(target=function, args=words, daemon=True)
    child.start()
    try:
        time.sleep(0.3)
        yield child
    finally:
        child.kill()
        child.join()


def is_in_time(running, who, most, ask):
    """The host answers and works no longer than this for it; what else the machine does must not count."""
    before, began = running.seconds(), time.monotonic()
    want(ask(), b"readyok\n", who)
    took, waited = running.seconds() - before, time.monotonic() - began
    if took > most or waited > PATIENCE / 4:
        raise Wrong(f"{who} waited {waited:.2f} s, while the host worked {took:.2f} s")


def is_served_in_time(running, what, most=MOST):
    """Asks again and again, over one connection and over new ones."""
    with running.connect() as client:

        def ask():
            client.sendall(b"isready\n")
            return exactly(client, 8)

        for _ in range(30):
            is_in_time(running, f"a client beside {what}", most, ask)
            time.sleep(0.01)
    is_in_time(running, f"a new client beside {what}", 2 * most, lambda: running.ask(b"isready\n"))


def is_small(running, most, what):
    if running.memory() > most:
        raise Wrong(f"{what}: it has {running.memory()} bytes")


def does_not_spin(running, what):
    before = running.seconds()
    time.sleep(0.4)
    if running.seconds() - before > 0.2:
        raise Wrong(f"it spins: {what}")


@contextlib.contextmanager
def attacked(*words, **how):
    """A host that is at rest before and after."""
    with host(*words, **how) as running:
        descriptors = at_first(running)
        yield running
        is_at_rest(running, descriptors)
        does_not_spin(running, "at rest")


def lines_that_the_table_answers():
    """A turn answers one line of each client, whatever else each has sent."""
    with attacked() as running:
        running.ask(LONG_ANSWER + b"go\n")
        for reads in (True, False):
            with attack(pour, running.path, 16, LONG_ANSWER, b"go\n" * 1_365, reads):
                is_served_in_time(running, "16 clients with 1,365 `go`")
                is_small(running, 20_000_000, "16 clients with 1,365 `go`")
        with attack(pour, running.path, 1, LONG_ANSWER, b"go\n" * 1_365, False):
            time.sleep(1)
            does_not_spin(running, "a deaf client with 1,365 `go`")


def long_lines_of_moves():
    with attacked() as running:
        with attack(pour, running.path, 16, b"", LONG_POSITION, True):
            is_served_in_time(running, "16 clients with long lines")
            is_small(running, 20_000_000, "16 clients with long lines")


def searches(running, client):
    """The processor time of some searches at depth 4."""
    before = running.seconds()
    for _ in range(20):
        client.sendall(b"go depth 4\n")
        while b"bestmove" not in client.recv(65_536):
            pass
    return running.seconds() - before


def an_idle_crowd():
    """1,000 clients that say nothing cost one who searches little. Two hosts are asked by turns, since the
    machine may do other work too; their tables have one entry, so that each search makes the same steps."""
    words = ("--slots", "1024", "--entries", "1")
    alone = beside = 0.0
    with many_files(2_300), host(*words) as quiet, host(*words, preexec_fn=files(1_100)) as full:
        with contextlib.ExitStack() as crowd:
            for _ in range(1_000):
                crowd.enter_context(full.connect())
            want(full.ask(b"isready\n"), b"readyok\n", "a client of the crowd")
            one, other = crowd.enter_context(quiet.connect()), crowd.enter_context(full.connect())
            for _ in range(10):
                alone += searches(quiet, one)
                beside += searches(full, other)
            does_not_spin(full, "1,000 idle clients")
    if beside > 1.5 * alone + 0.05:
        raise Wrong(f"{alone:.2f} s alone, and {beside:.2f} s beside 1,000 idle clients")


def searchers_that_vanish():
    """Their searches go on until the next line can't be written; the others are served."""
    with attacked("--slice", "1000") as running:
        for _ in range(63):
            with running.connect() as client:
                client.sendall(b"setoption name MultiPV value 8\ngo depth 3\n")
                want(exactly(client, 4), b"info", "the first line of a searcher")
        is_served_in_time(running, "63 searchers that are gone")


def connect_floods():
    with attacked() as running:
        with attack(flood, running.path), attack(flood, running.path):
            is_served_in_time(running, "a flood")


def descriptors_that_are_passed():
    """They are closed by the system, and the bytes beside them are read."""
    with attacked() as running:
        with running.connect() as client, open(os.devnull, "rb") as passed:
            for _ in range(20):
                socket.send_fds(client, [b"isready\n"], [passed.fileno()] * 5)
                want(exactly(client, 8), b"readyok\n", "a client that passes descriptors")
            if running.descriptors() > 8:
                raise Wrong("it keeps descriptors that it was passed")


def bytes_out_of_band():
    """They are not among the others, and nothing waits or spins for them."""
    with attacked() as running:
        with running.connect() as client:
            client.sendall(b"isready\n")
            want(exactly(client, 8), b"readyok\n", "before")
            with contextlib.suppress(OSError):
                client.send(b"!", socket.MSG_OOB)
            does_not_spin(running, "a byte out of band")
            client.sendall(b"\nisready\n")
            want(exactly(client, 8), b"readyok\n", "afterwards")


def standard_streams_that_are_closed():
    def close_all():
        for number in (0, 1, 2):
            os.close(number)

    with attacked(preexec_fn=close_all) as running:
        want(running.ask(b"go\n"), DEPTH_THREE, "a client")


def memory_that_is_refused_while_others_wait():
    """No client makes it stop: with memory it serves those who come."""
    with attacked("--entries", "256") as running:
        pid = running.running.pid
        with open(f"/proc/{pid}/statm", encoding="ascii") as numbers:
            size = int(numbers.read().split()[0]) * os.sysconf("SC_PAGE_SIZE")
        whole = resource.prlimit(pid, resource.RLIMIT_AS)
        resource.prlimit(pid, resource.RLIMIT_AS, (size, whole[1]))
        clients = [running.connect() for _ in range(40)]
        for client in clients:
            client.setblocking(False)
            with contextlib.suppress(OSError):
                client.send(b"usi\n" * 1_000 + LONG_POSITION)
        time.sleep(1)
        resource.prlimit(pid, resource.RLIMIT_AS, whole)
        is_served_in_time(running, "clients whose memory was refused")
        for client in clients:
            client.close()


def a_registration_that_is_refused_while_others_wait():
    """One of three who come at once is dropped; the others are served without another client."""
    with refusals.refusing(refusals.EPOLL_CTL, {2}) as how, host(**how) as running:
        running.running.send_signal(signal.SIGSTOP)
        clients = [running.connect() for _ in range(3)]
        for client in clients:
            client.sendall(b"isready\n")
        running.running.send_signal(signal.SIGCONT)
        want(to_the_end(clients[0]), b"", "the first one")
        for client in clients[1:]:
            want(exactly(client, 8), b"readyok\n", "one who waited")
            client.close()


def signals_are_no_fault():
    with host() as running, running.connect() as client:
        client.sendall(b"isready\n")
        want(exactly(client, 8), b"readyok\n", "before")
        for number in (signal.SIGWINCH, signal.SIGSTOP, signal.SIGCONT, signal.SIGWINCH):
            running.running.send_signal(number)
            time.sleep(0.05)
        client.sendall(b"isready\n")
        want(exactly(client, 8), b"readyok\n", "afterwards")


ENDING = (signal.SIGTERM, signal.SIGINT, signal.SIGHUP, signal.SIGUSR1)


def disposed(number, what):
    """Sets what a signal does to a new process, whatever it does to this one."""
    return lambda: signal.signal(number, what)


def these_signals_end_it():
    """In the middle of a search, and without a word."""
    for number in ENDING:
        with folder() as place:
            running = Host(place, preexec_fn=disposed(number, signal.SIG_DFL))
            try:
                is_ended_by(running, number)
            finally:
                running.running.kill()


def is_ended_by(running, number):
    with running.connect() as idle, running.connect() as client:
        client.sendall(b"go depth 16\n")
        want(exactly(client, len(DEPTH_ONE)), DEPTH_ONE, "a search in progress")
        running.running.send_signal(number)
        want(running.running.wait(PATIENCE), -number, f"the status by {number.name}")
        want(to_the_end(idle), b"", f"an idle client, by {number.name}")
        want(b"bestmove" in to_the_end(client), False, f"a best move, by {number.name}")
    want(running.stop(), (b"", b""), f"what it wrote, by {number.name}")
    want(os.path.exists(running.path), True, f"the socket's file stays, by {number.name}")


def a_signal_that_is_ignored_at_its_start_does_nothing():
    """As SIGHUP under nohup."""
    for number in ENDING:
        with host(preexec_fn=disposed(number, signal.SIG_IGN)) as running:
            try:
                want(running.ask(b"isready\n"), b"readyok\n", "before")
                running.running.send_signal(number)
                time.sleep(0.1)
                want(running.ask(b"isready\n"), b"readyok\n", f"after {number.name}")
            finally:
                running.running.kill()


def it_ends_after_its_turns():
    with folder() as place:
        running = Host(place, "--turns", "1")
        time.sleep(0.2)
        want(running.is_running(), True, "it waits after the last turn")
        with running.connect() as client:
            want(running.running.wait(PATIENCE), 0, "the status")
            want(to_the_end(client), b"", "a client of a host that ended")
        want(running.stop(), (b"", b""), "what it wrote")
        want(os.path.exists(running.path), True, "the socket's file stays")


def each_turn_answers_one_line_of_each():
    """The first turn finds nobody. Two clients wait before the next one, which takes them in and answers a line
    of each; one of them has sent them all at once."""
    answers = b"readyok\n", USI, GO_DEPTH_ONE, b""
    for turns in range(2, 6):
        with folder() as place:
            running = Host(place, "--turns", str(turns))
            time.sleep(0.2)
            running.running.send_signal(signal.SIGSTOP)
            many, one = running.connect(), running.connect()
            many.sendall(b"isready\nusi\ngo depth 1\nisready")
            one.sendall(b"isready\n")
            running.running.send_signal(signal.SIGCONT)
            want(running.running.wait(PATIENCE), 0, "the status")
            said = b"".join(answers[: turns - 1])
            want(to_the_end(many), said, f"who sent many lines, after {turns} turns")
            want(to_the_end(one), b"readyok\n", f"who sent one, after {turns} turns")
            many.close()
            one.close()
            want(running.stop(), (b"", b""), "what it wrote")


def the_mode_of_the_socket_is_the_umask():
    with host(preexec_fn=lambda: os.umask(0o117)) as running:
        want(oct(os.stat(running.path).st_mode & 0o777), "0o660", "the file's mode")


def refused(path, **how):
    """Why no socket is made at this path."""
    ended = subprocess.run(
        [how.pop("program", PROGRAM), "serve", f"--socket={path}"],
        stdin=subprocess.DEVNULL,
        capture_output=True,
        timeout=PATIENCE,
        check=False,
        **how,
    )
    return ended.returncode, ended.stdout, ended.stderr


def a_socket_that_cannot_be_made_is_told():
    failed = (1, b"", SOCKET_FAILED)
    with folder() as place:
        there = os.path.join(place, "there")
        with open(there, "wb"):
            pass
        want(refused(there), failed, "a file is there")
        with open(there, "rb") as kept:
            want(kept.read(), b"", "the file that was there")
        pipe = os.path.join(place, "pipe")
        os.mkfifo(pipe)
        want(refused(pipe), failed, "a pipe is there")
        want(refused(place), failed, "a folder is there")
        want(refused(os.path.join(place, "no", "folder")), failed, "no folder")
        want(refused(os.path.join(place, "l" * 108)), failed, "a path that is too long")
        want(refused(""), failed, "an empty path")

        closed = os.path.join(place, "closed")
        os.mkdir(closed, 0o555)
        # The system's manager may write anywhere: somebody else has to try.
        how = {"user": 65_534, "group": 65_534} if os.geteuid() == 0 else {}
        copy = os.path.join(place, "usi_host")
        shutil.copy(PROGRAM, copy)
        os.chmod(copy, 0o755)
        seen = refused(os.path.join(closed, "socket"), program=copy, cwd=place, **how)
        want(seen, failed, "no permission")


def a_socket_that_was_left_is_told_from_a_live_one():
    with folder() as place:
        running = Host(place)
        taken = (1, b"", SOCKET_TAKEN)
        want(refused(running.path), taken, "another host is there")
        want(running.ask(b"isready\n"), b"readyok\n", "the other host")
        want(running.stop(), (b"", b""), "what it wrote")
        for _ in range(2):
            want(refused(running.path), (1, b"", SOCKET_LEFT), "the socket of a host that has ended")
        os.unlink(running.path)
        again = Host(place)
        want(again.ask(b"isready\n"), b"readyok\n", "a host after the socket was removed")
        want(again.stop(), (b"", b""), "what it wrote")

        busy = os.path.join(place, "busy")
        with socket.socket(socket.AF_UNIX) as listener:
            listener.bind(busy)
            listener.listen(0)
            with socket.socket(socket.AF_UNIX) as first:
                first.connect(busy)
                want(refused(busy), taken, "one that listens and has no room for another client")


def want_of_memory_is_told():
    """A limit that lets a small table be made refuses a large one."""
    with folder() as place:
        limited = lambda: resource.setrlimit(resource.RLIMIT_AS, (8 << 20, 8 << 20))
        path = os.path.join(place, "socket")
        ended = subprocess.run(
            [PROGRAM, "serve", "--socket", path, "--entries", "1000000"],
            stdin=subprocess.DEVNULL,
            capture_output=True,
            timeout=PATIENCE,
            check=False,
            preexec_fn=limited,
        )
        seen = (ended.returncode, ended.stdout, ended.stderr)
        want(seen, (1, b"", b"usi_host: out of memory\n"), "a table of a million")
        want(os.path.exists(path), False, "a socket before the host was made")


# ---- the status


@contextlib.contextmanager
def told(*words, **how):
    """A host that tells its status."""
    with folder() as place:
        path = os.path.join(place, "status")
        running = Host(place, "--status", path, *words, **how)
        running.status = path
        wait_until(lambda: os.path.exists(path), "the socket of the status")
        try:
            yield running
        finally:
            running.stop()


def status_client(running):
    client = socket.socket(socket.AF_UNIX, socket.SOCK_STREAM)
    client.settimeout(PATIENCE)
    until = time.monotonic() + PATIENCE
    while True:
        try:
            client.connect(running.status)
            return client
        except (ConnectionRefusedError, BlockingIOError):
            if time.monotonic() > until:
                raise
            time.sleep(0.01)


def status(running):
    with status_client(running) as client:
        line = to_the_end(client)
    want(line.count(b"\n"), 1, "the lines of a status")
    return json.loads(line)


def picked(running, **wanted):
    """These numbers of the status."""
    seen = status(running)
    want({name: seen.get(name) for name in wanted}, wanted, f"of {seen}")


def until_status(running, what, **wanted):
    """Waits until the status has these numbers."""
    wait_until(lambda: all(status(running).get(name) == n for name, n in wanted.items()), what)


def a_status_names_its_process():
    before = time.time()
    with told() as running:
        picked(running, pid=running.running.pid)
        # The clock of the host may be that of the last tick.
        if not before - 2 <= status(running)["started"] <= time.time():
            raise Wrong(f"the start: {status(running)}")


def a_status_counts_searches():
    with told("--slice", "1") as running:
        picked(running, bestmoves=0, steps=0, probes=0, hits=0)
        want(running.ask(b"isready\ngo depth 3\nquit\n"), b"readyok\n" + DEPTH_THREE, "a client")
        until_status(running, "its end", finished=1, bestmoves=1)
        first = status(running)
        if not (first["steps"] > 0 and first["probes"] > first["hits"] >= 0):
            raise Wrong(f"a search: {first}")
        if first["steps"] > first["turns"]:
            raise Wrong(f"more steps a turn than the slice: {first}")
        # What the table has takes no step.
        want(running.ask(b"go depth 3\ngo depth 3\nquit\n"), DEPTH_THREE * 2, "another client")
        until_status(running, "its end", finished=2, bestmoves=3, steps=first["steps"])
        if not first["hits"] < status(running)["hits"]:
            raise Wrong(f"what the table has: {first}, {status(running)}")
        # A bestmove that is held is counted once it is written.
        with running.connect() as client:
            client.sendall(b"go ponder depth 1\n")
            want(exactly(client, len(DEPTH_ONE)), DEPTH_ONE, "a client that ponders")
            picked(running, bestmoves=3)
            client.sendall(b"ponderhit\n")
            until_status(running, "the held bestmove", bestmoves=4)


def a_status_counts_what_happened():
    with told("--slots", "3", "--entries", "500", "--slice", "70") as running:
        version = subprocess.run(
            [PROGRAM, "--version"], capture_output=True, timeout=PATIENCE, check=True
        )
        name = version.stdout.decode().split()[1]
        picked(running, version=name, slots=3, used=0, searching=0, waiting=0, entries=500)
        picked(running, slice=70, filled=0, accepted=0, full=0, bytes_in=0, bytes_out=0, faults=0)
        first, second = running.connect(), running.connect()
        first.sendall(b"isready\n")
        want(exactly(first, 8), b"readyok\n", "the first")
        until_status(running, "two clients", used=2, waiting=2, searching=0, accepted=2)
        second.sendall(b"go depth 16\n")
        want(exactly(second, len(DEPTH_ONE)), DEPTH_ONE, "the second")
        until_status(running, "a search", used=2, waiting=1, searching=1)
        if not 0 < status(running)["filled"] <= 500:
            raise Wrong(f"the entries that are used: {status(running)}")
        third = running.connect()
        until_status(running, "the third", used=3)
        want(running.ask(b""), HOST_FULL, "who finds the host full")
        until_status(running, "who was turned away", accepted=4, full=1, used=3, finished=0)
        # The line of who is turned away is among the bytes.
        first.sendall(b"usi\nquit\n")
        want(to_the_end(first), USI, "the first")
        until_status(running, "the first is gone", finished=1, used=2, bytes_in=8 + 12 + 9)
        third.close()
        until_status(running, "the third is gone", finished=2, used=1, ended_reading=0)
        with running.connect() as fourth:
            fourth.sendall(b"go depth 16\n")
            want(exactly(fourth, len(DEPTH_ONE)), DEPTH_ONE, "the fourth")
        until_status(running, "a search whose client is gone", ended_writing=1)
        picked(running, used=1, searching=1, accepted=5, full=1, finished=2, unopened=0)
        second.close()


def a_status_shows_the_setup():
    with told() as running:
        picked(running, depth=3, max_depth=16, lines=1, eval="plain")
    for word in ("plain", "hand", "exchange"):
        words = ("--depth", "2", "--max-depth", "5", "--lines", "8", "--eval", word)
        with told(*words) as running, running.connect() as client:
            picked(running, depth=2, max_depth=5, lines=8, eval=word)
            # What a session sets for itself is not told.
            client.sendall(b"setoption name Depth value 4\nsetoption name MultiPV value 1\nisready\n")
            want(exactly(client, 8), b"readyok\n", "a client")
            picked(running, depth=2, max_depth=5, lines=8, eval=word)


def setup_of(place):
    """What the host whose status is there was started with."""
    with socket.socket(socket.AF_UNIX) as client:
        client.settimeout(PATIENCE)
        client.connect(os.path.join(place, "status"))
        told = json.loads(to_the_end(client))
    return {name: told[name] for name in "slots entries slice depth max_depth lines eval".split()}, told["pid"]


def an_upgrade_keeps_the_setup():
    """The commands of docs/OPERATING.md: the new host has the words of the old one, who is connected stays with that,
    and it ends once nobody is. They want `socat`."""
    if shutil.which("socat") is None:
        return
    with open(os.path.join(TOP, "docs", "OPERATING.md"), encoding="utf-8") as page:
        [commands] = re.findall(r"^## An upgrade without loss\n[^`]*```sh\n(.*?)```", page.read(), re.M | re.S)
    words = "--slots 7 --entries 99 --slice 50 --depth 2 --max-depth 4 --lines 2 --eval exchange".split()
    with folder() as place:
        os.symlink(PROGRAM, os.path.join(place, "usi_host"))
        old = Host(place, "--status", os.path.join(place, "status"), *words)
        began, old_process = setup_of(place)
        new_process = None
        how = {"cwd": place, "env": {**os.environ, "PATH": f"{place}:{os.environ['PATH']}"}}
        with old.connect() as client, subprocess.Popen(["bash", "-c", commands], **how) as running:
            try:
                client.sendall(b"isready\n")
                want(client.recv(100), b"readyok\n", "a client of the old host")
                wait_until(lambda: os.path.exists(os.path.join(place, "status.old")), "the new host")
                wait_until(lambda: not os.path.exists(os.path.join(place, "socket.new")), "its name")
                has, new_process = setup_of(place)
                want((has, new_process != old_process), (began, True), "the setup of the new host")
                client.sendall(b"isready\n")
                want(client.recv(100), b"readyok\n", "the old host goes on")
                offered = old.ask(b"usi\n").splitlines()
                for option in (b"Depth type spin default 2 min 1 max 4", b"MultiPV type spin default 2 min 1 max 8"):
                    want(b"option name " + option in offered, True, f"{option} in {offered}")
                client.close()
                want(running.wait(PATIENCE), 0, "the end of the commands")
                wait_until(lambda: not old.is_running(), "the end of the old host")
            finally:
                running.kill()
                old.stop()
                if new_process is not None:
                    os.kill(new_process, signal.SIGTERM)


def a_session_begins_under_the_setup():
    words = ("--depth", "1", "--max-depth", "2", "--eval", "exchange")
    with host(*words) as running:
        lines = b"usi\ngo\ngo depth 3\nquit\n"
        offered = usi_of(depth=1, most=2, evaluation=b"Exchange")
        first = b"info depth 1 score cp 0 pv 1g1f\n"
        second = b"info depth 2 score cp 0 pv 1g1f 1a1b\n"
        answer = offered + first + b"bestmove 1g1f\n" + first + second + b"bestmove 1g1f ponder 1a1b\n"
        for _ in range(2):
            want(running.ask(lines), answer, "a client")


def bytes_are_counted():
    lines = b"usi\nisready\ngo depth 1\nquit\n"
    answer = on_standard_input(lines)
    with told() as running:
        for number in range(1, 4):
            want(running.ask(lines), answer, "a client")
            until_status(running, "its end", finished=number)
            picked(running, bytes_in=number * len(lines), bytes_out=number * len(answer), used=0)


def sixty_four_status_clients_at_once():
    with told("--slots", "2") as running, running.connect() as client:
        client.sendall(b"isready\n")
        want(exactly(client, 8), b"readyok\n", "a client")
        before = running.descriptors()
        running.running.send_signal(signal.SIGSTOP)
        clients = [status_client(running) for _ in range(64)]
        client.sendall(b"go depth 1\n")
        running.running.send_signal(signal.SIGCONT)
        for seen in [to_the_end(other) for other in clients]:
            want(json.loads(seen)["slots"], 2, "one of 64")
        want(exactly(client, len(GO_DEPTH_ONE)), GO_DEPTH_ONE, "a client beside them")
        for other in clients:
            other.close()
        wait_until(lambda: running.descriptors() == before, "each descriptor is closed")
        before = running.seconds()
        time.sleep(0.3)
        if running.seconds() - before > 0.15:
            raise Wrong("it spins after 64 status clients")


def hostile_status_clients():
    with told() as running:
        picked(running, accepted=0)
        before = running.descriptors()
        silent = [status_client(running) for _ in range(20)]
        for client in [status_client(running) for _ in range(20)]:
            with contextlib.suppress(BrokenPipeError, ConnectionResetError):
                client.sendall(b"\xff garbage\n" * 1_000)
            want(json.loads(to_the_end(client))["used"], 0, "one that sends garbage")
            client.close()
        for _ in range(50):
            status_client(running).close()
        want(running.ask(b"go\n"), DEPTH_THREE, "a client beside them")
        wait_until(lambda: running.descriptors() == before, "those that do not read are closed")
        for client in silent:
            client.close()
        picked(running, accepted=1, used=0, bytes_in=3)


def a_status_while_the_host_is_full():
    with told("--slots", "2", "--slice", "7") as running, contextlib.ExitStack() as stack:
        for _ in range(2):
            stack.enter_context(running.connect()).sendall(b"go depth 16\n")
        until_status(running, "two searches", used=2, searching=2)
        for number in range(1, 4):
            want(running.ask(b"isready\n"), HOST_FULL, "who finds it full")
            until_status(running, "it is counted", full=number, used=2)


def a_status_while_no_more_files_can_be_opened():
    """One descriptor is kept for it, again and again."""
    with told(preexec_fn=files(16)) as running, contextlib.ExitStack() as stack:
        clients = [stack.enter_context(running.connect()) for _ in range(30)]
        clients[0].sendall(b"isready\n")
        want(exactly(clients[0], 8), b"readyok\n", "a client with a descriptor")
        until_status(running, "an accept has failed", full=0, searching=0)
        for _ in range(40):
            if not 0 < status(running)["used"] < 16:
                raise Wrong(f"those who are served: {status(running)}")
        does_not_spin(running, "no more files can be opened")
        clients[0].close()
        for client in clients[1:25]:
            client.sendall(b"quit\n")
        until_status(running, "those who waited are served", used=5)


def a_status_whose_accept_fails_is_answered_later():
    """Nothing else happens meanwhile. The first accept is that of the other socket."""
    with refusals.refusing(refusals.ACCEPT4, set(range(2, 8))) as how, told(**how) as running:
        before = running.seconds()
        seen = status(running)
        if seen["faults"] < 3:
            raise Wrong(f"the accepts that failed: {seen}")
        if running.seconds() - before > 0.2:
            raise Wrong("it spins while an accept fails")


def a_status_is_looked_for_only_where_somebody_asks():
    """Turns without a visitor make no accept, so none of those that are refused here is reached."""
    with refusals.refusing(refusals.ACCEPT4, set(range(6, 60))) as how, told(**how) as running:
        with running.connect() as client:
            for _ in range(40):
                client.sendall(b"isready\n")
                want(exactly(client, 8), b"readyok\n", "a client")
            picked(running, faults=0)


def what_comes_behind_quit_is_not_counted():
    with told() as running:
        want(running.ask(b"isready\nquit\n" + b"usi\n" * 100), b"readyok\n", "a client")
        until_status(running, "its end", finished=1, bytes_in=13, bytes_out=8)


def a_status_socket_that_cannot_be_made_is_told():
    with folder() as place:
        there = os.path.join(place, "there")
        with open(there, "wb"):
            pass
        path = os.path.join(place, "socket")
        left = os.path.join(place, "left")
        with socket.socket(socket.AF_UNIX) as gone:
            gone.bind(left)
        listens = os.path.join(place, "listens")
        listener = socket.socket(socket.AF_UNIX)
        listener.bind(listens)
        listener.listen(1)
        failed = b"usi_host: status socket failed"
        for other, why in (
            (there, b"\n"),
            ("", b"\n"),
            (os.path.join(place, "no", "folder"), b"\n"),
            (left, b": nobody listens at it; remove it, and start again\n"),
            (listens, b": a process listens at it; take another path\n"),
            (path, b": a process listens at it; take another path\n"),
        ):
            ended = subprocess.run(
                [PROGRAM, "serve", "--socket", path, f"--status={other}"],
                capture_output=True,
                timeout=PATIENCE,
                check=False,
            )
            seen = (ended.returncode, ended.stdout, ended.stderr)
            want(seen, (1, b"", failed + why), f"a status at {other!r}")
            want(os.path.lexists(path), False, "the file of the other socket")
        for taken in (there, left, listens):
            ended = subprocess.run(
                [PROGRAM, "serve", "--socket", taken, "--status", os.path.join(place, "status")],
                capture_output=True,
                timeout=PATIENCE,
                check=False,
            )
            want((ended.returncode, ended.stdout), (1, b""), f"a socket at {taken!r}")
            if not ended.stderr.startswith(b"usi_host: socket failed"):
                raise Wrong(f"a socket at {taken!r}: {ended.stderr!r}")
        listener.close()
        names = sorted(os.listdir(place))
        want(names, ["left", "listens", "there"], "the files that were there")


def too_few_files_are_told_at_the_start():
    with folder() as place:
        for slots, most, said in (
            (20, 30, b""),
            (20, 29, b"usi_host: 30 files are wanted, and 29 may be open (ulimit -n)\n"),
        ):
            running = Host(place, "--slots", str(slots), preexec_fn=files(most))
            want(running.ask(b"isready\n"), b"readyok\n", "a client")
            want(running.stop(), (b"", said), f"what it wrote, which may open {most} files")
            os.unlink(running.path)


def words_of_serve():
    with folder() as place:
        spaced = os.path.join(place, "a b")
        os.mkdir(spaced)
        running = Host(spaced, "--turns", "18446744073709551615")
        try:
            want(running.ask(b"isready\n"), b"readyok\n", "a path with a space")
        finally:
            running.stop()
    with host("--slots=1024", "--entries=7", "--slice=1") as running:
        want(running.ask(b"go\n"), DEPTH_THREE, "numbers after `=`")
    for words in (
        [],
        ["--socket"],
        ["--slots", "1"],
        ["--socket", "s", "--turns", "0"],
        ["--socket", "s", "--turns", "18446744073709551616"],
        ["--socket", "s", "--slots", "1025"],
        ["--socket", "s", "--entries", "0"],
        ["--socket", "s", "--slice", "1000000001"],
        ["--socket", "s", "--socket", "s"],
        ["--socket", "s", "--status"],
        ["--socket", "s", "--status", "t", "--status", "t"],
        ["--status", "t"],
        ["s"],
    ):
        ended = subprocess.run(
            [PROGRAM, "serve", *words], capture_output=True, timeout=PATIENCE, check=False
        )
        want((ended.returncode, ended.stdout), (2, b""), f"{words}")
        if b"--help" not in ended.stderr:
            raise Wrong(f"{words}: standard error is {ended.stderr!r}")
    for words in (["serve", "--help"], ["help", "serve"]):
        ended = subprocess.run([PROGRAM, *words], capture_output=True, timeout=PATIENCE, check=False)
        want((ended.returncode, ended.stderr), (0, b""), f"{words}")
        for part in (b"--socket <PATH>", b"--status <PATH>", b"--turns", b"host full"):
            if part not in ended.stdout:
                raise Wrong(f"{words}: no {part} in {ended.stdout!r}")


CHECKS = (
    each_of_64_clients_gets_its_own_answers,
    an_end_after_go_loses_no_answer,
    lines_of_their_own,
    hostile_clients_leave_nothing_behind,
    a_full_host_turns_away_who_comes_then,
    who_is_turned_away_is_told,
    who_never_ends_holds_nothing,
    who_lingers_gives_way,
    too_many_open_files_are_waited_for,
    lines_that_the_table_answers,
    long_lines_of_moves,
    an_idle_crowd,
    searchers_that_vanish,
    connect_floods,
    descriptors_that_are_passed,
    bytes_out_of_band,
    standard_streams_that_are_closed,
    memory_that_is_refused_while_others_wait,
    a_registration_that_is_refused_while_others_wait,
    signals_are_no_fault,
    these_signals_end_it,
    a_signal_that_is_ignored_at_its_start_does_nothing,
    it_ends_after_its_turns,
    each_turn_answers_one_line_of_each,
    the_mode_of_the_socket_is_the_umask,
    a_socket_that_cannot_be_made_is_told,
    a_socket_that_was_left_is_told_from_a_live_one,
    want_of_memory_is_told,
    a_status_names_its_process,
    a_status_counts_searches,
    a_status_counts_what_happened,
    a_status_shows_the_setup,
    an_upgrade_keeps_the_setup,
    a_session_begins_under_the_setup,
    bytes_are_counted,
    sixty_four_status_clients_at_once,
    hostile_status_clients,
    a_status_while_the_host_is_full,
    a_status_while_no_more_files_can_be_opened,
    a_status_whose_accept_fails_is_answered_later,
    a_status_is_looked_for_only_where_somebody_asks,
    what_comes_behind_quit_is_not_counted,
    a_status_socket_that_cannot_be_made_is_told,
    too_few_files_are_told_at_the_start,
    words_of_serve,
)


MEASURING = (
    hostile_clients_leave_nothing_behind,
    lines_that_the_table_answers,
    long_lines_of_moves,
    an_idle_crowd,
    searchers_that_vanish,
    connect_floods,
    descriptors_that_are_passed,
    bytes_out_of_band,
    standard_streams_that_are_closed,
    memory_that_is_refused_while_others_wait,
    want_of_memory_is_told,
)


if __name__ == "__main__":
    sys.exit(run_all("serve", CHECKS, MEASURING))
