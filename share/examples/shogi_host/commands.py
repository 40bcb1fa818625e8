"""What the commands share: their arguments, the sessions that they ask for, work side by side, and what they tell."""

import argparse
import io
import os
import queue
import subprocess
import sys
import threading
from typing import Callable, Iterator, Optional, Sequence, TypeVar

from .engine import EVALUATIONS, Engine, want_depth
from .errors import Gone

PROGRAM_HINT = "--program PATH names the program to start"
C = TypeVar("C")
I = TypeVar("I")
R = TypeVar("R")


def tell(text: object) -> None:
    """Says something on standard error, under the script's name."""
    print(f"{os.path.basename(sys.argv[0])}: {text}", file=sys.stderr, flush=True)


def write_utf8() -> None:
    """Has the output be in UTF-8, whatever the locale."""
    if isinstance(sys.stdout, io.TextIOWrapper):
        sys.stdout.reconfigure(encoding="utf-8")


def show_progress(text: str, end: str = "") -> None:
    """Shows how far a script is, on one line of the terminal, if standard error is one."""
    if sys.stderr.isatty():
        print(f"\r{text:<40}", end=end, file=sys.stderr, flush=True)


def in_order(clients: Sequence[C], items: Sequence[I], work: Callable[[C, I], R]) -> Iterator[R]:
    """What `work(client, item)` gives for each item, in the order of the items, with each client in a thread of its own.
    What it raises for one is raised once those before it are given."""
    wanted, lock = iter(enumerate(items)), threading.Lock()
    found: queue.Queue[tuple[int, list[R], Optional[Exception]]] = queue.Queue()

    def serve(client: C) -> None:
        while True:
            with lock:
                taken = next(wanted, None)
            if taken is None:
                return
            number, item = taken
            try:
                found.put((number, [work(client, item)], None))
            except Exception as why:  # it is raised where the results are taken
                found.put((number, [], why))
                return

    for client in clients:
        threading.Thread(target=serve, args=(client,), daemon=True).start()
    early: dict[int, tuple[list[R], Optional[Exception]]] = {}
    for number in range(len(items)):
        while number not in early:
            at, came, failure = found.get()
            early[at] = came, failure
        came, failure = early.pop(number)
        if failure is not None:
            raise failure
        yield from came


def depth_of(text: str) -> int:
    """A depth on the command line."""
    try:
        want_depth(text)
    except ValueError as why:
        raise argparse.ArgumentTypeError(str(why)) from why
    return int(text)


def evaluation_of(text: str) -> str:
    """An evaluation on the command line, by its own name or by the program's word for it."""
    return next((name for name in EVALUATIONS if text in (name, name.lower())), text)


def patience_of(text: str) -> float:
    """A patience on the command line."""
    return 0.0 if text == "0" else seconds_of(text)


def seconds_of(text: str) -> float:
    """A time on the command line."""
    try:
        seconds = float(text)
    except ValueError:
        seconds = 0.0
    if not 0 < seconds < float("inf"):
        raise argparse.ArgumentTypeError(f"a time is a number of seconds above 0, and not {text!r}")
    return seconds


def add_arguments(parser: argparse.ArgumentParser, depth: Optional[int] = 6, told: str = "6") -> None:
    """The arguments by which the scripts choose a host, and what it searches: to this depth, told as this, if no other
    is asked for."""
    where = parser.add_mutually_exclusive_group()
    where.add_argument("--program", default="usi_host", help="the program to start (usi_host)")
    where.add_argument("--socket", help="the socket of a host that runs already")
    parser.add_argument("--depth", type=depth_of, default=depth, help=f"in plies, from 1 to 16 ({told})")
    parser.add_argument(
        "--eval", type=evaluation_of, choices=EVALUATIONS, help="the evaluation (Exchange where it is offered, else Plain)"
    )
    parser.add_argument(
        "--timeout", type=seconds_of, metavar="SECONDS", help="the longest that an answer may take (no limit)"
    )
    parser.add_argument(
        "--patience",
        type=patience_of,
        default=60.0,
        metavar="SECONDS",
        help="how long to wait for the host of --socket to be there and to have room (60)",
    )


# The entries of the table of a program that is started here, as `usi_analyst` has them: from depth 7 on they save work.
ENTRIES = "65536"


def command_of(program: str, depth: int) -> list[str]:
    """The words that start the program. One that does not know the evaluation Exchange refuses its words with
    the status 2, and is started without them."""
    words = [program, "stdio", "--eval", "exchange", "--depth", str(depth), "--entries", ENTRIES]
    try:
        tried = subprocess.run(words, stdin=subprocess.DEVNULL, capture_output=True, timeout=120, check=False)
    except OSError as why:
        raise Gone(f"{program}: {why.strerror}; {PROGRAM_HINT}, --socket PATH a host that runs") from why
    except subprocess.TimeoutExpired as why:
        raise Gone(f"{program}: it does not end where its input ends") from why
    return [program] if tried.returncode == 2 else words


def client_of(arguments: argparse.Namespace, lines: int = 1) -> Engine:
    """The client that the arguments ask for, with its evaluation set, which stands in `options["Eval"]`. Raises
    `Lacking` where the host has no such evaluation, does not search so deep, or does not show so many lines."""
    command = None if arguments.socket else command_of(arguments.program, arguments.depth)
    path, patience = arguments.socket, arguments.patience
    client = Engine(command, path, patience=patience, timeout=arguments.timeout, lines=lines, tell=tell)
    offered = client.offered.get("Eval", ())
    chosen = arguments.eval or next((name for name in EVALUATIONS if name in offered), "")
    with client.lacking():
        client.want_depth(arguments.depth)
        client.configure({"Eval": chosen})
    return client


def told_evaluation(client: Engine, arguments: argparse.Namespace) -> str:
    """What is said of the evaluation where it is not the one to analyse with; nothing where it is, or was chosen."""
    evaluation = str(client.options["Eval"])
    if arguments.eval or evaluation == EVALUATIONS[0]:
        return ""
    return f"evaluation {evaluation}, as {client.name} does not offer {EVALUATIONS[0]}"


