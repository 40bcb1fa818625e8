#!/usr/bin/env python3
"""Runs the built program as a front end or an operator would, and looks at what it writes, at its
exit status, and at when its lines come. Its one argument is the program; without it, the program that
`make build` makes. Its last line is `N passed, M failed`."""

import contextlib
import os
import re
import resource
import select
import shutil
import signal
import subprocess
import sys
import tempfile
import time

from checks import DEPTH_ONE, DEPTH_THREE, IS_UNPROVED, PROGRAM, TOP, USI, Wrong, run_all, usi_of, want

# The longest that a run may take, in seconds.
PATIENCE = 60

POINTER = b"\n\nFor more information, try '--help'.\n"
FOR_THE_VERSION = b"For the version, try 'usi_host --version'.\n"
NOT_UTF_8 = b"error: a word of the command line is not UTF-8" + POINTER


def run(words, sent=b"", **how):
    """Runs the program to its end on these bytes: its status, its output, its complaints."""
    how.setdefault("stdout", subprocess.PIPE)
    if "stdin" not in how:
        how["input"] = sent
    ended = subprocess.run(
        [PROGRAM, *words], stderr=subprocess.PIPE, timeout=PATIENCE, check=False, **how
    )
    return ended.returncode, ended.stdout, ended.stderr


def limited():
    """Leaves the program 8 MiB of addresses, for the table and all else."""
    resource.setrlimit(resource.RLIMIT_AS, (8 << 20, 8 << 20))


def start(words=()):
    """Starts the program with a pipe at each end."""
    return subprocess.Popen(
        [PROGRAM, *words],
        stdin=subprocess.PIPE,
        stdout=subprocess.PIPE,
        stderr=subprocess.PIPE,
        bufsize=0,
    )


def line_of(running):
    """The next line, or fewer bytes where none comes in time."""
    line = b""
    until = time.monotonic() + PATIENCE
    while not line.endswith(b"\n"):
        ready, _, _ = select.select([running.stdout], [], [], max(0, until - time.monotonic()))
        byte = running.stdout.read(1) if ready else b""
        if not byte:
            break
        line += byte
    return line


def ends(running, status, complaint):
    """It ends by itself with this status, and complains of this alone."""
    try:
        _, complaints = running.communicate(timeout=PATIENCE)
    except subprocess.TimeoutExpired:
        running.kill()
        running.communicate()
        raise Wrong("it did not end") from None
    want(running.returncode, status, "status")
    want(complaints, complaint, "standard error")


def no_words_are_a_session():
    want(run([], b"usi\nisready\nquit\nisready\n"), (0, USI + b"readyok\n", b""), "a session")


def stdio_is_the_same():
    want(run(["stdio"], b"go\n"), (0, DEPTH_THREE, b""), "stdio")


def the_table_may_have_one_entry_or_a_million():
    for words in (
        ["--entries", "1"],
        ["--entries=1000000"],
        ["--entries", "4097"],
        ["--entries", "007"],
    ):
        want(run(["stdio", *words], b"go\n"), (0, DEPTH_THREE, b""), f"{words}")


def a_last_line_without_its_end_is_no_line():
    want(run([], b"isready\nisready"), (0, b"readyok\n", b""), "a last line without LF")


def a_line_that_is_too_long_ends_the_session():
    """The longest line has 65,535 bytes, a CR before its LF among them."""
    too_long = b"info string line too long\n"
    for length, ending, answer in (
        (65_535, b"\nisready\n", b"readyok\n"),
        (65_534, b"\r\nisready\n", b"readyok\n"),
        (65_536, b"\nisready\n", too_long),
        (65_536, b"isready\n", too_long),
        (65_535, b"\r\nisready\n", too_long),
        (65_536, b"", too_long),
        (65_535, b"", b""),
    ):
        want(run([], b"x" * length + ending), (0, answer, b""), f"{length} bytes and {ending}")


# What each command's help has, and what its long one has besides. The numbers are those of docs/PROTOCOL.md.
TABLE = (b"--entries", b"from 1 to 1000000", b"[default: 4096]")
SLICES = (
    b"--slots",
    b"from 1 to 1024",
    b"[default: 64]",
    b"--slice",
    b"from 1 to 1000000000",
    b"[default: 300]",
)
SETUP = (
    b"--depth",
    b"from 1 to 16",
    b"[default: 3, or --max-depth if less]",
    b"--max-depth",
    b"[default: 16]",
    b"--lines",
    b"from 1 to 8",
    b"[default: 1]",
    b"--eval",
    b"plain, hand or exchange",
    b"[default: plain]",
)
TURNS = b"from 1 to 18446744073709551615 [default: no end]"
SOCKET = (b"--socket", b"1 to 107 bytes", b"--status", b"--turns", TURNS)
SCRIPT = (b"+A ", b"A TEXT", b"-A ", b"refused 1", b"3  ", b"usi_host replay --slots 2")
HELPS = (
    (
        [],
        (b"stdio", b"replay", b"serve", b"perft", b"moves", b"mate", b"--version", b"COMMAND --help"),
        (b"0  ", b"1  ", b"2  ", b"3  ", b"usi_host stdio --entries 100000\n"),
    ),
    (
        ["stdio"],
        TABLE + SETUP,
        (b"0  ", b"1  ", b"usi_host stdio --entries 100000", b"stdio --eval exchange --depth 6"),
    ),
    (["replay"], TABLE + SLICES + SETUP, SCRIPT),
    (
        ["perft"],
        (b"--depth", b"from 1 to 16", b"--sfen", b"[default: the opening position]", b"--divide"),
        (b"0  ", b"1  ", b"2  ", b"usi_host perft --depth 4"),
    ),
    (["moves"], (b"--sfen", b"[default: the opening position]"), (b"0  ", b"1  ", b"2  ", b"usi_host moves --sfen")),
    (
        ["mate"],
        (
            *(b"--plies", b"from 1 to 15", b"[default: 9]", b"--line", b"--keys"),
            *(b"--sfen", b"[default: the lines of standard input]"),
        ),
        (b"0  ", b"1  ", b"2  ", b"usi_host mate --sfen", b"error: line 3: ", b"unique"),
    ),
    (
        ["serve"],
        TABLE + SLICES + SETUP + SOCKET,
        (b"host full", b"strangers", b"1  ", b"usi_host serve --socket"),
    ),
)


def help_is_no_fault():
    """Each command has a short help with its options, and a long one with statuses and examples too."""
    for command, in_both, in_long in HELPS:
        texts = []
        for words in ([*command, "-h"], [*command, "--help"], ["help", *command]):
            status, text, complaints = run(words)
            want((status, complaints), (0, b""), f"{words}")
            for part in in_both:
                if part not in text:
                    raise Wrong(f"{words}: no {part} in {text!r}")
            texts.append(text)
        want(texts[2], texts[1], f"help {command}")
        for part in (*in_long, b"Exit statuses:", b"Example"):
            want((part in texts[0], part in texts[1]), (False, True), f"{part} for {command}")


def the_version_is_no_fault():
    for word in ("--version", "-V"):
        status, text, complaints = run([word])
        want((status, complaints, text.count(b"\n")), (0, b"", 3), word)
        if not text.startswith(b"usi_host 0.1.0\nProved: "):
            raise Wrong(f"{word}: no version in {text!r}")
    with open("/dev/full", "wb") as full:
        status, _, complaints = run(["--version"], stdout=full)
    want((status, complaints), (1, b"usi_host: write failed\n"), "a full device")


def other_words_are_refused():
    for words in (
        ["sdtio"],
        ["go"],
        ["serve"],
        ["--entries", "1"],
        ["stdio", "--entries"],
        ["stdio", "--entries", "0"],
        ["stdio", "--entries", "1000001"],
        ["stdio", "--entries", "18446744073709551616"],
        ["stdio", "--entries", "1", "--entries", "2"],
        ["stdio", "--entries", "-1"],
        ["stdio", "--entries", "many"],
        ["stdio", "1"],
        ["stdio", "--slots", "1"],
        ["replay", "script"],
        ["replay", "--slots", "0"],
        ["replay", "--slots", "1025"],
        ["replay", "--entries", "0"],
        ["replay", "--entries", "1000001"],
        ["replay", "--slice", "0"],
        ["replay", "--slice", "1000000001"],
        ["replay", "--slots", "1", "--slots", "2"],
        ["--depth", "1"],
        ["stdio", "--depth", "0"],
        ["stdio", "--depth", "17"],
        ["stdio", "--max-depth", "0"],
        ["stdio", "--max-depth", "17"],
        ["stdio", "--lines", "0"],
        ["stdio", "--lines", "9"],
        ["stdio", "--eval"],
        ["stdio", "--eval", "plain", "--eval", "plain"],
        ["replay", "--depth", "many"],
        ["serve", "--depth", "1"],
        ["perft"],
        ["perft", "--depth"],
        ["perft", "--depth", "0"],
        ["perft", "--depth", "17"],
        ["perft", "--depth", "1", "--depth", "1"],
        ["perft", "--depth", "1", "--divide", "--divide"],
        ["perft", "--depth", "1", "--divide=true"],
        ["perft", "--depth", "1", "--max-depth", "1"],
        ["perft", "--depth", "1", "--sfen"],
        ["moves", "startpos"],
        ["moves", "--depth", "1"],
        ["mate", "startpos"],
        ["mate", "--plies"],
        ["mate", "--plies", "0"],
        ["mate", "--plies", "17"],
        ["mate", "--plies", "9", "--plies", "9"],
        ["mate", "--depth", "9"],
        ["mate", "--sfen"],
        ["mate", "--line=true"],
        ["mate", "--keys", "--keys"],
        # What `clap` finds is told first.
        ["stdio", "--depth", "17", "--max-depth", "4", "--eval", "material"],
    ):
        is_refused(words, POINTER)
    for words in (["stdio", "--version"], ["serve", "--socket", "s", "-V"], ["version"], ["-v"]):
        is_refused(words, POINTER + FOR_THE_VERSION)


def is_refused(words, ending):
    status, text, complaints = run(words)
    want((status, text), (2, b""), f"{words}")
    if not complaints.startswith(b"error: ") or not complaints.endswith(ending):
        raise Wrong(f"{words}: standard error is {complaints!r}")


def a_number_with_a_sign_is_refused():
    said = b"error: a number is written in digits alone, without a sign" + POINTER
    for words in (
        ["stdio", "--entries", "+5"],
        ["replay", "--slots", "+5"],
        ["replay", "--slice=+5"],
        ["replay", "--slots", "5", "--slice", "+05"],
        ["serve", "--socket", "s", "--slots", "+5"],
        ["serve", "--socket", "s", "--turns", "+05"],
        ["serve", "--socket", "+5", "--turns", "+5"],
        ["stdio", "--depth", "+3"],
        ["replay", "--max-depth", "+16"],
        ["serve", "--socket", "s", "--lines=+1"],
        ["perft", "--depth", "+1"],
        ["mate", "--plies", "+9"],
        # A depth that can be read is above the greatest, but another number cannot be read.
        ["stdio", "--depth", "5", "--max-depth", "4", "--lines", "+1"],
    ):
        want(run(words), (2, b"", said), f"{words}")


def an_evaluation_is_one_of_three():
    said = b"error: --eval takes plain, hand or exchange" + POINTER
    for words in (
        ["stdio", "--eval", "material"],
        ["stdio", "--eval", "PLAIN"],
        ["stdio", "--eval="],
        ["replay", "--eval", "plains"],
        ["serve", "--socket", "s", "--eval", "exchange "],
        # It is told before a number with a sign, and before the depth.
        ["stdio", "--eval", "see", "--entries", "+5"],
        ["stdio", "--eval", "see", "--depth", "5", "--max-depth", "4"],
    ):
        want(run(words), (2, b"", said), f"{words}")


def a_depth_above_the_greatest_is_refused():
    for words, depth, most in (
        (["--depth", "5", "--max-depth", "4"], 5, 4),
        (["--max-depth=1", "--depth=2"], 2, 1),
        (["--depth", "16", "--max-depth", "15", "--eval", "exchange"], 16, 15),
        (["--depth", "010", "--lines", "8", "--max-depth", "09"], 10, 9),
    ):
        said = b"error: --depth %d is above --max-depth %d" % (depth, most) + POINTER
        for command in (["stdio"], ["replay"], ["serve", "--socket", "s"]):
            want(run([*command, *words]), (2, b"", said), f"{command} {words}")


def an_even_number_of_plies_is_refused():
    said = b"error: --plies takes an odd number, from 1 to 15" + POINTER
    for plies in ("2", "8", "14", "08"):
        for words in (["--plies", plies], ["--sfen", MATE_IN_ONE, f"--plies={plies}"], ["--sfen", "x", "--plies", plies]):
            want(run(["mate", *words], b"x\n"), (2, b"", said), f"{words}")


def usi_shows_the_setup():
    """Each word alone, and several; without `--depth` it is 3, or less where the greatest is less."""
    for words, reply in (
        ([], USI),
        (["--depth", "3", "--max-depth", "16", "--lines", "1", "--eval", "plain"], USI),
        (["--depth", "6"], usi_of(depth=6)),
        (["--depth=16"], usi_of(depth=16)),
        (["--max-depth", "8"], usi_of(most=8)),
        (["--max-depth", "3"], usi_of(most=3)),
        (["--max-depth", "2"], usi_of(depth=2, most=2)),
        (["--max-depth", "1"], usi_of(depth=1, most=1)),
        (["--lines", "8"], usi_of(lines=8)),
        (["--eval", "Plain"], usi_of()),
        (["--eval", "hand"], usi_of(evaluation=b"Hand")),
        (["--eval", "Hand"], usi_of(evaluation=b"Hand")),
        (["--eval", "exchange"], usi_of(evaluation=b"Exchange")),
        (["--eval", "Exchange"], usi_of(evaluation=b"Exchange")),
        (
            ["--depth", "4", "--max-depth", "4", "--lines", "2", "--eval", "exchange"],
            usi_of(4, 4, b"Exchange", 2),
        ),
        (
            ["--eval=hand", "--lines=05", "--entries", "7", "--max-depth=5", "--depth=1"],
            usi_of(1, 5, b"Hand", 5),
        ),
    ):
        want(run(["stdio", *words], b"usi\n"), (0, reply, b""), f"stdio {words}")
        output = b"== A\n" + reply + b"== B\n" + reply
        want(run(["replay", *words], b"+A\nA usi\n+B\nB usi\n"), (0, output, b""), f"replay {words}")


# What front ends are told of it: docs/GUIDE.md.
ANALYST = usi_of(6, 8, b"Exchange")
ANALYST_WORDS = b"stdio;--eval;exchange;--depth;6;--max-depth;8;"


def ended_with(words, sent, **how):
    """The status, the output and the complaints of a program that is sent this."""
    ended = subprocess.run(words, input=sent, capture_output=True, timeout=PATIENCE, check=False, **how)
    return ended.returncode, ended.stdout, ended.stderr


@contextlib.contextmanager
def analyst():
    """`usi_analyst`, as it is installed below a path with a space."""
    with tempfile.TemporaryDirectory() as folder:
        prefix = os.path.join(folder, "a place")
        words = [os.path.join(TOP, "check", "install.sh"), prefix]
        subprocess.run(words, env={**os.environ, "USI_HOST": PROGRAM}, check=True, capture_output=True)
        yield os.path.join(prefix, "bin", "usi_analyst")


def the_analyst_sets_the_program_up():
    """By its path, by the path of commands, and by links; words behind it are added, and bad ones refused as ever."""
    with analyst() as path, tempfile.TemporaryDirectory() as folder:
        told = (0, ANALYST, b"")
        want(ended_with([path], b"usi\n"), told, "by its path")
        named = {**os.environ, "PATH": f"{os.path.dirname(path)}:{os.environ['PATH']}"}
        want(ended_with(["sh", "-c", "usi_analyst"], b"usi\n", env=named), told, "by its name")
        want(ended_with(["./usi_analyst"], b"usi\n", cwd=os.path.dirname(path)), told, "from its folder")
        first, second = (os.path.join(folder, name) for name in ("a link", "-e"))
        os.symlink(path, first)
        os.symlink("a link", second)
        want(ended_with([first], b"usi\n"), told, "by a link")
        want(ended_with([second], b"usi\n"), told, "by a link to a link")
        want(ended_with(["sh", "-c", "./-e"], b"usi\n", cwd=folder), told, "by a link like an option")
        want(ended_with([path, "--lines", "2"], b"usi\n"), (0, usi_of(6, 8, b"Exchange", 2), b""), "words behind")
        want(ended_with([path], GUARDED), (0, SETTLED, b""), "captures are settled")
        for words in (["--lines", "9"], ["--depth", "5"], ["stdio"], ["a b"], [""], ["--entries", "+5"]):
            given = run(["stdio", "--eval", "exchange", "--depth", "6", "--max-depth", "8", *words])
            want((ended_with([path, *words], b""), given[0]), (given, 2), f"{words}")
        host = os.path.join(os.path.dirname(path), "usi_host")
        missing = f"usi_analyst: no program usi_host beside it: {host}\n".encode()
        os.unlink(host)
        with open(host, "w", encoding="utf-8") as file:
            file.write('#!/bin/sh\nprintf "%s;" "$@"\n')
        os.chmod(host, 0o755)
        for words, more in (([], "--entries;65536;"), (["--lines", "2"], "--entries;65536;--lines;2;")):
            want(ended_with([path, *words], b"")[1], ANALYST_WORDS + more.encode(), f"with {words}")
        for words in (["--entries", "7"], ["--lines", "2", "--entries=7"]):
            want(ended_with([path, *words], b"")[1], ANALYST_WORDS + "".join(f"{it};" for it in words).encode(), f"{words}")
        os.chmod(host, 0o644)
        want(ended_with([path], b"usi\n"), (127, b"", missing), "a file that is no program")
        os.unlink(host)
        os.mkdir(host)
        want(ended_with([first], b"usi\n"), (127, b"", missing), "a folder, by a link")
        os.rmdir(host)
        want(ended_with([path], b"usi\n"), (127, b"", missing), "nothing there")


def nothing_is_left_of_what_was_installed():
    with analyst() as path:
        prefix = os.path.dirname(os.path.dirname(path))
        there = [name for _, _, names in os.walk(prefix) for name in names]
        names = ("usi_host", "usi_analyst", "usi_host.1", "usi_analyst.1")
        want([name for name in names if name not in there], [], "what is missing")
        subprocess.run([os.path.join(TOP, "check", "uninstall.sh"), prefix], check=True)
        want([names for _, _, names in os.walk(prefix) if names], [], "files that are left")


def the_analyst_answers_xboard():
    """Through `uci2wb`, if that is installed, which takes a path without a space: a link to it."""
    bridge = shutil.which("uci2wb", path=f"{os.environ['PATH']}:/usr/games")
    if bridge is None:
        return
    with analyst() as path, tempfile.TemporaryDirectory() as folder:
        link = os.path.join(folder, "usi_analyst")
        os.symlink(path, link)
        pipes = {"stdin": subprocess.PIPE, "stdout": subprocess.PIPE, "bufsize": 0}
        with subprocess.Popen([bridge, "-s", link], **pipes) as running:
            seen = []

            def until(text):
                while not seen or text not in seen[-1]:
                    seen.append(line_of(running))
                    want(seen[-1].endswith(b"\n"), True, f"{text} in {seen}")

            running.stdin.write(b"xboard\nprotover 2\n")
            until(b"done=1")
            for feature in (b"Depth -spin 6 1 8", b"Eval -combo Plain /// Hand /// Exchange", b"MultiPV -spin 1 1 8"):
                want(b'feature option="%s"\n' % feature in seen, True, f"{feature} in {seen}")
            # Unsettled, the third ply of the opening takes a pawn, for 200.
            running.stdin.write(b"new\nvariant shogi\npost\nanalyze\n")
            until(b"  3  ")
            want(seen[-1].split()[:2], [b"3", b"0"], "the settled value at depth 3")
            running.stdin.write(b"exit\nquit\n")
            running.stdin.close()
            running.wait(PATIENCE)


def sessions_begin_with_the_setup():
    hand = DEPTH_THREE.replace(b"score cp 200", b"score cp 210")
    two = (
        b"info depth 1 multipv 1 score cp 0 pv 1g1f\n"
        b"info depth 1 multipv 2 score cp 0 pv 1i1h\n"
        b"bestmove 1g1f\n"
    )
    one = DEPTH_ONE + b"bestmove 1g1f\n"
    option = b"setoption name "
    for words, sent, reply in (
        (["--depth", "1"], b"go\nusinewgame\ngo\n", one + one),
        (["--depth", "1"], option + b"Depth value 3\ngo\n", DEPTH_THREE),
        (["--depth", "1"], b"go depth 3\ngo\n", DEPTH_THREE + one),
        (["--lines", "2", "--depth", "1"], b"go\n", two),
        (["--lines", "2", "--depth", "1"], option + b"MultiPV value 1\ngo\n", one),
        (["--eval", "hand"], b"go\n", hand),
        (["--eval", "hand"], option + b"Eval value Plain\ngo\n", DEPTH_THREE),
    ):
        want(run(["stdio", *words], sent), (0, reply, b""), f"stdio {words}")
        script = b"+A\n" + b"".join(b"A %s\n" % line for line in sent.splitlines())
        want(run(["replay", *words], script), (0, b"== A\n" + reply, b""), f"replay {words}")


def no_search_is_deeper_than_the_greatest():
    """An option, or a `go`, that asks for more is answered at the greatest depth."""
    two = DEPTH_ONE + b"info depth 2 score cp 0 pv 1g1f 1a1b\nbestmove 1g1f ponder 1a1b\n"
    one = DEPTH_ONE + b"bestmove 1g1f\n"
    deep = b"setoption name Depth value 16\n"
    for sent, reply in (
        (b"go\n", two),
        (b"go depth 2\n", two),
        (b"go depth 3\n", two),
        (b"go depth 16\n", two),
        (b"go depth 99\n", two),
        (deep + b"go\n", two),
        (deep + b"go infinite depth 16\nstop\n", two),
        (b"go depth 1\n", one),
        (b"setoption name Depth value 1\ngo\n", one),
    ):
        want(run(["stdio", "--max-depth", "2"], sent), (0, reply, b""), f"{sent}")


# A rook before a pawn that a gold guards: 1,000 - 700. It may take the pawn and promote, for 500, and is
# taken then, for 2,300. `Plain` stops at the capture, and `Exchange` does not.
GUARDED = b"position sfen 4k4/4g4/4p4/9/9/9/9/4R4/4K4 b - 1\ngo depth 1\n"
TAKEN = b"info depth 1 score cp 800 pv 5h5c+\nbestmove 5h5c+\n"
SETTLED = b"info depth 1 score cp 300 pv 5h1h\nbestmove 5h1h\n"


def captures_are_settled_where_exchange_is_offered():
    """A session whose host does not offer it passes the option over."""
    exchange = b"setoption name Eval value Exchange\n"
    plain = b"setoption name Eval value Plain\n"
    hand = b"setoption name Eval value Hand\n"
    offered = ["--eval", "exchange"]
    want(run(["stdio", *offered], GUARDED), (0, SETTLED, b""), "from the start")
    sent = plain + GUARDED + exchange + GUARDED
    want(run(["stdio", *offered], sent), (0, TAKEN + SETTLED, b""), "away and back")
    want(run([], exchange + GUARDED), (0, TAKEN, b""), "not offered")
    for words in ([], ["--eval", "plain"]):
        want(run(["stdio", *words], exchange + b"usi\n" + GUARDED), (0, USI + TAKEN, b""), f"{words}")
    # A pawn in hand counts 110: the same move is worth 10 more.
    more = TAKEN.replace(b"800", b"810")
    want(run([], hand + exchange + GUARDED), (0, more, b""), "the option stays as it was")
    want(run(["stdio", "--eval", "hand"], exchange + GUARDED), (0, more, b""), "Hand")
    script = b"+A\n+B\n" + b"".join(b"A %s\n" % line for line in GUARDED.splitlines())
    script += b"B " + plain + b"".join(b"B %s\n" % line for line in GUARDED.splitlines())
    output = b"== A\n" + SETTLED + b"== B\n" + TAKEN
    want(run(["replay", *offered], script), (0, output, b""), "one of two")


def a_word_that_is_not_utf_8_is_refused():
    for words in (
        [b"\xff"],
        [b"stdio\xff"],
        [b"stdio", b"--entries", b"1\x80"],
        [b"\xe3\x81", b"--help"],
    ):
        want(run(words), (2, b"", NOT_UTF_8), f"{words}")
    status, text, complaints = run(["将棋"])
    want((status, text), (2, b""), "a word in UTF-8")
    if complaints == NOT_UTF_8 or "将棋".encode() not in complaints:
        raise Wrong(f"a word in UTF-8: standard error is {complaints!r}")


def a_full_device_is_a_failed_write():
    with open("/dev/full", "wb") as full:
        status, _, complaints = run([], b"usi\n", stdout=full)
    want((status, complaints), (1, b"usi_host: write failed\n"), "a full device")


def a_folder_is_a_failed_read():
    folder = os.open(TOP, os.O_RDONLY)
    try:
        seen = run([], stdin=folder)
    finally:
        os.close(folder)
    want(seen, (1, b"", b"usi_host: read failed\n"), "a folder as input")


def want_of_memory_is_told():
    """The table takes several bytes for each entry before the first note: a limit that lets a small
    one be made refuses a large one, so the number of entries is not ignored."""
    small = run(["stdio", "--entries", "1"], b"isready\n", preexec_fn=limited)
    want(small, (0, b"readyok\n", b""), "a table of one entry")
    large = run(["stdio", "--entries", "1000000"], b"isready\n", preexec_fn=limited)
    want(large, (1, b"", b"usi_host: out of memory\n"), "a table of a million")


def want_of_memory_for_the_words_is_told():
    """Each word takes 256 bytes and more while it is read: 50,000 of them do not fit into the limit,
    and a few do."""
    few = run(["stdio"] + ["x"] * 5, preexec_fn=limited)
    want((few[0], few[1]), (2, b""), "a few words")
    many = run(["stdio"] + ["x"] * 50_000, preexec_fn=limited)
    want(many, (1, b"", b"usi_host: out of memory\n"), "50,000 words")


def quit_ends_it_while_the_input_stays_open():
    running = start()
    running.stdin.write(b"isready\nquit\n")
    want(line_of(running), b"readyok\n", "isready")
    until = time.monotonic() + PATIENCE
    while running.poll() is None:
        if time.monotonic() > until:
            running.kill()
            raise Wrong("it reads on after quit")
        time.sleep(0.01)
    ends(running, 0, b"")


def each_line_is_answered_before_the_next_is_read():
    running = start()
    for sent, answer in ((b"isready\n", b"readyok\n"), (b"go depth 1\n", DEPTH_ONE)):
        running.stdin.write(sent)
        want(line_of(running), answer, f"{sent}")
    want(line_of(running), b"bestmove 1g1f\n", "bestmove")
    running.stdin.close()
    running.stdin = None
    ends(running, 0, b"")


def info_lines_come_as_they_are_found():
    """Depth 16 would not end in years: what comes, comes before the end."""
    running = start()
    running.stdin.write(b"go depth 16\n")
    for line in DEPTH_THREE.splitlines(keepends=True)[:3]:
        want(line_of(running), line, "an info line")
    running.kill()
    running.communicate()


def a_front_end_that_is_gone_is_noticed():
    running = start()
    running.stdin.write(b"go depth 16\n")
    want(line_of(running), DEPTH_ONE, "the first info line")
    running.stdout.close()
    running.stdout = None
    ends(running, 1, b"usi_host: write failed\n")


# A middle game: depth 6 takes ten times as long as the first five, and depth 7 ten times as long again.
MIDDLE_GAME = "position sfen l6nl/5+P1gk/2np1S3/p1p4Pp/3P2Sp1/1PPb2P1P/P5GS1/R8/LN4bKL w RGgsn5p 1\n"

# A front end: it starts the program that it is given, tells the number of its group, sends a deep search,
# and tells each line that the program writes. A shell between them tells the status on standard error, and
# then by `times` what the program took of the processors, as in `0m1.250s 0m0.010s`.
FRONT_END = """
import subprocess, sys
running = subprocess.Popen(
    ["sh", "-c", '"$0"; echo "status $?" >&2; times >&2', sys.argv[1]],
    stdin=subprocess.PIPE, stdout=subprocess.PIPE, start_new_session=True, bufsize=0,
)
print(running.pid, flush=True)
running.stdin.write(sys.argv[2].encode())
for line in running.stdout:
    sys.stdout.buffer.write(line)
    sys.stdout.buffer.flush()
"""


def processor_seconds(words, sent):
    """What a whole run takes of the processors."""
    before = resource.getrusage(resource.RUSAGE_CHILDREN)
    want(run(words, sent)[0], 0, "status")
    after = resource.getrusage(resource.RUSAGE_CHILDREN)
    return after.ru_utime + after.ru_stime - before.ru_utime - before.ru_stime


def seconds_of_children(times):
    """The second line of `times`: the seconds of the shell's children."""
    words = times.decode().splitlines()[1].split()
    return sum(60 * float(it.split("m")[0]) + float(it.split("m")[1].rstrip("s")) for it in words)


def a_killed_front_end_is_noticed_at_the_next_depth():
    """The front end is killed when depth 5 is done: the program ends when 6 is done, and not later. What it
    takes of the processors is compared, since the machine may do other work."""
    six = processor_seconds([], f"{MIDDLE_GAME}go depth 6\n".encode())
    words = [sys.executable, "-c", FRONT_END, PROGRAM, f"{MIDDLE_GAME}go depth 9\n"]
    with subprocess.Popen(words, stdout=subprocess.PIPE, stderr=subprocess.PIPE) as front_end:
        group = int(front_end.stdout.readline())
        for depth in range(1, 6):
            line = front_end.stdout.readline()
            want(line.startswith(b"info depth %d " % depth), True, f"the line of depth {depth}")
        front_end.kill()
        said = b""
        until = time.monotonic() + PATIENCE
        while True:
            left = until - time.monotonic()
            if left < 0 or not select.select([front_end.stderr], [], [], left)[0]:
                os.killpg(group, signal.SIGKILL)
                raise Wrong(f"it runs on for {PATIENCE} s after its front end")
            piece = os.read(front_end.stderr.fileno(), 1_000)
            if not piece:
                break
            said += piece
    ending = b"usi_host: write failed\nstatus 1\n"
    want(said[: len(ending)], ending, "standard error and the status")
    took = seconds_of_children(said[len(ending) :])
    if took > 2 * six + 0.5:
        raise Wrong(f"it took {took:.2f} s of the processors, and {six:.2f} s to depth 6")


def a_closed_output_is_a_failed_write():
    reading, writing = os.pipe()
    os.close(reading)
    with os.fdopen(writing, "wb") as closed:
        status, _, complaints = run([], b"usi\n", stdout=closed)
    want((status, complaints), (1, b"usi_host: write failed\n"), "a closed pipe")


def a_file_is_as_good_as_a_pipe():
    with tempfile.TemporaryFile() as sent, tempfile.TemporaryFile() as written:
        sent.write(b"go\n")
        sent.seek(0)
        status, _, complaints = run([], stdin=sent, stdout=written)
        written.seek(0)
        want((status, written.read(), complaints), (0, DEPTH_THREE, b""), "files")


def a_replay_writes_what_its_sessions_reply():
    script = b"+A\n+B\nB usi\n-B\nA setoption name Depth value 1\n-A\n+A\nA go\n-A\n"
    output = b"== A\n== B\nrefused 1\n== A\n" + DEPTH_THREE
    want(run(["replay", "--slots", "1"], script), (0, output, b""), "one slot")
    want(run(["replay"]), (0, b"", b""), "an empty script")


def neither_entries_nor_slices_change_a_replay():
    script = b"+A\n+B\nA go depth 1\nB go depth 3\nA quit\nB quit\n"
    output = b"== A\n" + DEPTH_ONE + b"bestmove 1g1f\n== B\n" + DEPTH_THREE
    for entries in ("1", "4096"):
        for slice_ in ("1", "7", "1000", "1000000000"):
            words = ["replay", "--slots", "2", "--entries", entries, "--slice", slice_]
            want(run(words, script), (0, output, b""), f"{words}")


def numbers_of_a_replay():
    """Of three names those are refused for which there is no slot."""
    script = b"+A\n+B\n+C\n"
    for words, slots in (
        ([], 64),
        (["--slots", "2", "--slice", "1"], 2),
        (["--slice=1000000000"], 64),
        (["--slots", "1024"], 1_024),
        (["--entries", "1000000"], 64),
        (["--slice", "7", "--entries", "1", "--slots", "1"], 1),
    ):
        output = b"".join(
            b"== %c\n" % name + b"refused 1\n" * (place >= slots)
            for place, name in enumerate(b"ABC")
        )
        want(run(["replay", *words], script), (0, output, b""), f"{words}")


def every_letter_is_a_name():
    """With 25 slots the last one is refused."""
    names = [bytes([letter]) for letter in range(ord("A"), ord("Z") + 1)]
    script = b"".join(b"+%s\n" % name for name in names)
    script += b"".join(b"%s isready\n" % name for name in names)
    answers = [b"== %s\nreadyok\n" % name for name in names]
    for slots, last in (("26", answers[-1]), ("25", b"== Z\nrefused 1\n")):
        output = b"".join(answers[:-1]) + last
        want(run(["replay", "--slots", slots], script), (0, output, b""), f"{slots} slots")


def a_slot_serves_a_thousand_sessions():
    script = b"+A\nA isready\n-A\n" * 1_000
    for slice_ in ("1", "1000"):
        words = ["replay", "--slots", "1", "--entries", "1", "--slice", slice_]
        want(run(words, script), (0, b"== A\nreadyok\n" * 1_000, b""), f"{words}")


def the_longest_line_of_a_script():
    """A text of 65,533 bytes makes it; one byte more is too long, ended or not. Unfinished it is no line."""
    longest = b"+A\nA " + b"x" * 65_533
    bad = (3, b"", b"usi_host: bad script line 2\n")
    for ending, seen in (
        (b"\nA isready\n", (0, b"== A\nreadyok\n", b"")),
        (b"", (0, b"== A\n", b"")),
        (b"\r", bad),
        (b"\r\nA isready\n", bad),
    ):
        want(run(["replay"], longest + ending), seen, f"the longest line and {ending}")


def each_session_has_an_evaluation_of_its_own():
    """Under `Hand` a piece in hand is worth a tenth more: the pawn that is taken for one counts 110 where it
    is held, and 100 where it was lost."""
    hand = DEPTH_THREE.replace(b"score cp 200", b"score cp 210")
    script = b"+A\n+B\nB setoption name Eval value Hand\nA go\nB go\n"
    want(run(["replay", "--slots", "2"], script), (0, b"== A\n" + DEPTH_THREE + b"== B\n" + hand, b""), "two")
    option = b"setoption name Eval value "
    want(run([], option + b"Hand\nusinewgame\ngo\n"), (0, hand, b""), "a new game keeps it")
    want(run([], option + b"hand\ngo\n"), (0, DEPTH_THREE, b""), "another spelling")
    want(run([], option + b"Hand\n" + option + b"Plain\ngo\n"), (0, DEPTH_THREE, b""), "back")


def several_lines_are_ranked():
    """The moves by what they are worth, and then by code; never more lines than legal moves, or than 8."""
    option = b"setoption name MultiPV value "
    two = (
        b"info depth 1 multipv 1 score cp 0 pv 1g1f\n"
        b"info depth 1 multipv 2 score cp 0 pv 1i1h\n"
        b"bestmove 1g1f\n"
    )
    one = DEPTH_ONE + b"bestmove 1g1f\n"
    want(run([], option + b"2\ngo depth 1\n"), (0, two, b""), "two lines")
    want(run([], option + b"2\nusinewgame\ngo depth 1\n"), (0, two, b""), "a new game keeps it")
    want(run([], option + b"0\ngo\n"), (0, DEPTH_THREE, b""), "no line is one")
    want(run([], b"setoption name multipv value 2\ngo depth 1\n"), (0, one, b""), "another spelling")
    mate = (
        b"info depth 1 multipv 1 score mate 1 pv G*5b\n"
        b"info depth 1 multipv 2 score cp 1200 pv 5c5b+\n"
        b"bestmove G*5b\n"
    )
    sent = option + b"2\nposition sfen 4k4/9/4P4/9/9/9/9/9/9 b G 1\ngo depth 1\n"
    want(run([], sent), (0, mate, b""), "a mate before a promotion")
    king = (
        b"info depth 1 multipv 1 score cp -1200 pv 5a4a\n"
        b"info depth 1 multipv 2 score cp -1200 pv 5a6a\n"
        b"info depth 2 multipv 1 score mate -2 pv 5a4a G*4b\n"
        b"info depth 2 multipv 2 score mate -2 pv 5a6a G*6b\n"
        b"bestmove 5a4a ponder G*4b\n"
    )
    sent = option + b"9\nposition sfen 4k4/9/4G4/9/9/9/9/9/9 w G 1\ngo depth 2\n"
    want(run([], sent), (0, king, b""), "more lines than moves")
    sent = option + b"8\nposition sfen 8k/6G2/7G1/9/9/9/9/9/9 w - 1\ngo depth 2\n"
    want(run([], sent), (0, b"bestmove resign\n", b""), "no move")
    script = b"+A\n+B\nA " + option + b"2\nB go depth 1\nA go depth 1\n"
    for slice_ in ("1", "1000"):
        words = ["replay", "--slots", "2", "--slice", slice_]
        want(run(words, script), (0, b"== A\n" + two + b"== B\n" + one, b""), f"{words}")


def several_lines_come_as_they_are_found():
    """The lines of depth 1 come before a search that would not end; a held move waits for `stop`."""
    running = start()
    running.stdin.write(b"setoption name MultiPV value 2\ngo infinite depth 1\n")
    want(line_of(running), b"info depth 1 multipv 1 score cp 0 pv 1g1f\n", "the first line")
    want(line_of(running), b"info depth 1 multipv 2 score cp 0 pv 1i1h\n", "the second line")
    ready, _, _ = select.select([running.stdout], [], [], 0.3)
    want(ready, [], "what can be read before `stop`")
    running.stdin.write(b"stop\ngo depth 16\n")
    want(line_of(running), b"bestmove 1g1f\n", "the held move")
    want(line_of(running), b"info depth 1 multipv 1 score cp 0 pv 1g1f\n", "the first line again")
    running.kill()
    running.communicate()


# The opening position, that of most moves, and one from the middle of a game.
OPENING = "lnsgkgsnl/1r5b1/ppppppppp/9/9/9/PPPPPPPPP/1B5R1/LNSGKGSNL b -"
MOST_MOVES = "R8/2K1S1SSk/4B4/9/9/9/9/9/1L1L1L3 b RBGSNLP3g3n17p 1"
MIDDLE = "l6nl/5+P1gk/2np1S3/p1p4Pp/3P2Sp1/1PPb2P1P/P5GS1/R8/LN4bKL w RGgsn5p 1"


def counts_are_those_that_are_published():
    for sfen, depth, count in (
        (OPENING, 1, 30),
        (OPENING, 2, 900),
        (OPENING, 3, 25_470),
        (MOST_MOVES, 1, 593),
        (MOST_MOVES, 2, 105_677),
        (MIDDLE, 1, 207),
        (MIDDLE, 2, 28_684),
    ):
        said = run(["perft", "--depth", str(depth), "--sfen", sfen])
        want(said, (0, b"%d\n" % count, b""), f"depth {depth} of {sfen}")
    want(run(["perft", "--depth", "2"]), (0, b"900\n", b""), "without a position")


def divided_counts_make_the_whole():
    """Each first move has its line, in the order in which `moves` lists them."""
    for sfen, depth, count in ((OPENING, 1, 30), (OPENING, 3, 25_470), (MIDDLE, 2, 28_684)):
        status, text, complaints = run(["perft", "--divide", "--sfen", sfen, "--depth", str(depth)])
        want((status, complaints), (0, b""), sfen)
        *lines, whole = text.decode().splitlines()
        shares = dict(line.split(": ") for line in lines)
        want((sum(int(it) for it in shares.values()), whole), (count, str(count)), sfen)
        want(run(["moves", "--sfen", sfen]), (0, "".join(f"{it}\n" for it in shares).encode(), b""), sfen)


def moves_are_listed_by_code():
    """Steps of the king, and then drops of a pawn, which is not dropped where it can never move. And a mated side."""
    ours = "4k4/9/9/9/9/9/9/9/4K4 b P"
    steps = "5i4h 5i4i 5i5h 5i6h 5i6i".split()
    drops = [f"P*{file}{rank}" for file in range(1, 10) for rank in "bcdefghi" if (file, rank) != (5, "i")]
    text = "".join(f"{it}\n" for it in steps + drops).encode()
    for sfen in (ours, f"{ours} 1", f"  {ours}\t17 ", f"{ours} moves"):
        want(run(["moves", "--sfen", sfen]), (0, text, b""), sfen)
    mated = "4k4/9/4P4/9/9/9/9/9/9 b G moves G*5b"
    want(run(["moves", "--sfen", mated]), (0, b"", b""), "a mated side")
    want(run(["perft", "--depth", "3", "--sfen", mated]), (0, b"0\n", b""), "a mated side")


def startpos_is_a_position():
    """By the word as by its SFEN, with moves and blanks; a line for `mate` as well."""
    for words in (["moves"], ["perft", "--depth", "2", "--divide"]):
        for sfen in ("startpos", " startpos\t", "startpos moves"):
            want(run([*words, "--sfen", sfen]), run(words), f"{words} {sfen}")
        played = f"{OPENING} moves 7g7f 3c3d"
        want(run([*words, "--sfen", "startpos moves 7g7f 3c3d"]), run([*words, "--sfen", played]), f"{words} {played}")
    want(run(["perft", "--depth", "2", "--sfen", "startpos"]), (0, b"900\n", b""), "two plies")
    want(run(["mate", "--plies", "1"], b"startpos\n"), (0, b"no mate in 1 plies by checks\n", b""), "a line")


def a_bad_sfen_is_named():
    for sfen, why in (
        ("x", b"it does not begin with a board"),
        ("Startpos", b"it does not begin with a board"),
        ("moves 7g7f", b"it does not begin with a board"),
        ("startpos 7g7f", b"what follows it is not `moves` and moves"),
        ("startpos moves 7g7f 7g7f", b"move 2 is not legal"),
        ("4k4/9/9/9/9/9/9/9/4K4", b"the side to move is neither b nor w"),
        ("4k4/9/9/9/9/9/9/9/4K4 B -", b"the side to move is neither b nor w"),
        ("4k4/9/9/9/9/9/9/9/4K4 b", b"the hands are missing or cannot be read"),
        ("4k4/9/9/9/9/9/9/9/4K4 b 19P", b"there are more pieces of a kind than a set has"),
        ("4k4/9/9/9/9/9/9/9/3KK4 b -", b"a side has two kings"),
        ("4k4/9/9/4P4/9/4P4/9/9/4K4 b -", b"a side has two unpromoted pawns on a file"),
        ("4k4/9/9/9/9/9/9/9/4p3K b -", b"a piece stands where it can never move"),
        ("4k4/4P4/9/9/9/9/9/9/9 b -", b"the side that is not to move is in check"),
        (f"{OPENING} 1 more", b"what follows it is not `moves` and moves"),
        (f"{OPENING} moves 7g7f 7g7f", b"move 2 is not legal"),
        (f"{OPENING} 1 moves 7g7e", b"move 1 is not legal"),
    ):
        for command in (["moves"], ["perft", "--depth", "1"], ["perft", "--depth", "16", "--divide"], ["mate"]):
            want(run([*command, "--sfen", sfen]), (2, b"", b"error: --sfen: " + why + POINTER), f"{command} {sfen}")
        want(run(["mate"], sfen.encode() + b"\n"), (2, b"error: line 1: " + why + b"\n", b""), f"a line: {sfen}")


def a_list_and_a_count_tell_their_faults():
    for words in (["moves"], ["perft", "--depth", "1"]):
        with open("/dev/full", "wb") as full:
            status, _, complaints = run(words, stdout=full)
        want((status, complaints), (1, b"usi_host: write failed\n"), f"a full device, {words}")
    running = start(["perft", "--depth", "16"])
    time.sleep(0.3)
    running.send_signal(signal.SIGINT)
    ends(running, -signal.SIGINT, b"")


def a_long_count_tells_a_terminal_how_far_it_is():
    words = ["perft", "--depth", "5" if IS_UNPROVED else "6"]
    tells_a_terminal(words, rb"usi_host: counted to [1-9][a-i][1-9][a-i]\+?\r?\n")


def tells_a_terminal(words, pattern):
    """Once a second, on standard error, and nothing else than a terminal is told."""
    here, there = os.openpty()
    with subprocess.Popen([PROGRAM, *words], stdout=subprocess.PIPE, stderr=there) as running:
        ready, _, _ = select.select([here], [], [], PATIENCE)
        said = os.read(here, 1000) if ready else b""
        running.kill()
    os.close(here)
    os.close(there)
    if not re.match(pattern, said):
        raise Wrong(f"a terminal is told {said!r}")
    running = start(words)
    time.sleep(3)
    running.send_signal(signal.SIGINT)
    ends(running, -signal.SIGINT, b"")


MATE_IN_ONE = "4k4/9/4P4/9/9/9/9/9/9 b G"
# The rook mates from each square of the first rank but the nearest; a pawn in the other hand can come between, but not
# where the rook is dropped beside the king.
ROOK = "8k/9/7G1/9/9/9/9/9/9 b R"
ROOK_AND_PAWN = "8k/9/7G1/9/9/9/9/9/9 b Rp"
# There is no mate by checks, and a search for one takes long.
NO_MATE = "9/9/9/9/4k4/9/9/9/9 b 4N4L"


def mates_are_told():
    """Problems solved by hand: the length, the line, the keys, and whether there is one key everywhere."""
    drops = b" ".join(b"R*%da" % file for file in range(3, 10))
    for sfen, line, lists, verdict in (
        (MATE_IN_ONE, b"G*5b", (b"G*5b",), b"unique"),
        (ROOK, b"R*3a", (drops,), b"1 node with more than one key"),
        (ROOK_AND_PAWN, b"R*1b 1a2a 1b2b+", (b"R*1b", b"1b2b+ 2c2b"), b"1 node with more than one key"),
    ):
        length = b"mate %d" % len(line.split())
        keys = b"".join(b"keys %s\n" % it for it in lists) + verdict + b"\n"
        for words, text in (
            ([], length + b"\n"),
            (["--line"], length + b" " + line + b"\n"),
            (["--keys"], length + b"\n" + keys),
            (["--keys", "--line", "--plies", "3"], length + b" " + line + b"\n" + keys),
        ):
            want(run(["mate", *words, "--sfen", sfen]), (0, text, b""), f"{words}, {sfen}")
            want(run(["mate", *words], sfen.encode()), (0, text, b""), f"a line, {words}, {sfen}")


def no_mate_is_told():
    """Stalemate, a pawn drop that would mate, a side without a king, a check of the attacker; and one ply too few."""
    for sfen, plies in (
        ("8k/7R1/6S2/9/9/9/9/9/9 b -", 1),
        ("7nk/9/7G1/9/9/9/9/9/9 b P", 5),
        ("9/9/4P4/9/9/9/9/9/4K4 b G", 3),
        ("4k4/9/4P4/9/9/9/9/9/r3K4 b G", 3),
        (ROOK_AND_PAWN, 1),
        (OPENING, 5),
        (f"{MATE_IN_ONE} moves G*5b", 9),
    ):
        text = b"no mate in %d plies by checks\n" % plies
        for words in ([], ["--line", "--keys"]):
            want(run(["mate", *words, "--plies", str(plies), "--sfen", sfen]), (0, text, b""), f"{words}, {sfen}")
    want(run(["mate", "--sfen", OPENING]), (0, b"no mate in 9 plies by checks\n", b""), "by default")


def lines_are_answered_one_by_one():
    """Each before the next is sent. An empty line has no answer, and the last one needs no LF."""
    running = start(["mate", "--plies", "3"])
    for line, answer in (
        (MATE_IN_ONE.encode() + b"\n", b"mate 1\n"),
        (b"\n\r\n" + ROOK_AND_PAWN.encode() + b"\r\n", b"mate 3\n"),
        (b"x\n", b"error: line 5: it does not begin with a board\n"),
        (b" \n", b"error: line 6: it does not begin with a board\n"),
        (OPENING.encode() + b" moves 7g7f 7g7f\n", b"error: line 7: move 2 is not legal\n"),
        (ROOK.encode() + b" 1\n", b"mate 1\n"),
    ):
        running.stdin.write(line)
        want(line_of(running), answer, f"the answer to {line}")
    running.stdin.write(MATE_IN_ONE.encode())
    running.stdin.close()
    running.stdin = None
    want(line_of(running), b"mate 1\n", "a last line without LF")
    ends(running, 2, b"")


def a_file_of_positions_is_answered():
    text = b"".join(b"%s\n" % it.encode() for it in (MATE_IN_ONE, ROOK, ROOK_AND_PAWN)) * 100
    want(run(["mate"], text), (0, b"mate 1\nmate 1\nmate 3\n" * 100, b""), "three hundred lines")
    want(run(["mate"]), (0, b"", b""), "no line")
    long = b"error: line 2: it is too long, and nothing behind it is read\n"
    for length, answer in (
        (65_535, b"error: line 2: it does not begin with a board\nmate 1\n"),
        (65_536, long),
        (1_000_000, long),
    ):
        sent = MATE_IN_ONE.encode() + b"\n" + b"x" * length + b"\n" + MATE_IN_ONE.encode() + b"\n"
        want(run(["mate"], sent), (2, b"mate 1\n" + answer, b""), f"a line of {length} bytes")


def a_search_for_a_mate_tells_its_faults():
    for words, sent in ((["mate", "--sfen", MATE_IN_ONE], b""), (["mate"], MATE_IN_ONE.encode())):
        with open("/dev/full", "wb") as full:
            status, _, complaints = run(words, sent, stdout=full)
        want((status, complaints), (1, b"usi_host: write failed\n"), f"a full device, {words}")
    folder = os.open(TOP, os.O_RDONLY)
    try:
        seen = run(["mate"], stdin=folder)
    finally:
        os.close(folder)
    want(seen, (1, b"", b"usi_host: read failed\n"), "a folder as input")
    running = start(["mate", "--plies", "15", "--sfen", NO_MATE])
    time.sleep(0.3)
    running.send_signal(signal.SIGINT)
    ends(running, -signal.SIGINT, b"")


def a_long_search_for_a_mate_tells_a_terminal_how_far_it_is():
    words = ["mate", "--plies", "15", "--sfen", NO_MATE]
    tells_a_terminal(words, rb"usi_host: no mate by [NL]\*[1-9][a-i] in [0-9]+ plies\r?\n")


def the_first_bad_line_of_a_script_is_named():
    for script, line in (
        (b"A go\n", 1),
        (b"+A\n+A\n", 2),
        (b"-B\n", 1),
        (b"+A\nA isready\n?\n?\n", 3),
        (b"+A\nA " + b"x" * 65_534, 2),
    ):
        complaint = b"usi_host: bad script line %d\n" % line
        want(run(["replay"], script), (3, b"", complaint), f"{script[:40]}")


def a_replay_writes_nothing_before_its_script_ends():
    running = start(["replay"])
    running.stdin.write(b"+A\nA isready\n")
    ready, _, _ = select.select([running.stdout], [], [], 0.5)
    want(ready, [], "what can be read before the end")
    running.stdin.close()
    running.stdin = None
    want(line_of(running) + line_of(running), b"== A\nreadyok\n", "the output")
    ends(running, 0, b"")


def a_replay_tells_its_faults():
    with open("/dev/full", "wb") as full:
        status, _, complaints = run(["replay"], b"+A\nA usi\n", stdout=full)
    want((status, complaints), (1, b"usi_host: write failed\n"), "a full device")
    folder = os.open(TOP, os.O_RDONLY)
    try:
        seen = run(["replay"], stdin=folder)
    finally:
        os.close(folder)
    want(seen, (1, b"", b"usi_host: read failed\n"), "a folder as input")

    large = run(["replay", "--entries", "1000000"], b"+A\nA isready\n", preexec_fn=limited)
    want(large, (1, b"", b"usi_host: out of memory\n"), "a table of a million")


def the_readme_shows_its_answers():
    """Each block of README.md for a shell that is followed by a block of text writes that text. Those with
    a socket want `socat`."""
    with open(os.path.join(TOP, "README.md"), encoding="utf-8") as readme:
        blocks = re.findall(r"```sh\n([^`]*)```\n\n```text\n([^`]*)```", readme.read())
    if len(blocks) < 3:
        raise Wrong(f"README.md has {len(blocks)} blocks with an answer")
    for shell, answer in blocks:
        if "socat" in shell and shutil.which("socat") is None:
            continue
        with tempfile.TemporaryDirectory() as folder:
            shell = shell.replace("crates/usi_host/out/usi_host", PROGRAM)
            # What is shown of the program before its proof holds of the proved one.
            shell = shell.replace("make try", PROGRAM).replace("check/try.sh", PROGRAM)
            shell = shell.replace("/tmp/shogi.socket", os.path.join(folder, "socket"))
            ended = subprocess.run(
                ["bash", "-m", "-c", shell], capture_output=True, timeout=PATIENCE, check=False
            )
        want(ended.stdout.decode(), answer, shell)


CHECKS = (
    no_words_are_a_session,
    stdio_is_the_same,
    the_table_may_have_one_entry_or_a_million,
    a_last_line_without_its_end_is_no_line,
    a_line_that_is_too_long_ends_the_session,
    help_is_no_fault,
    the_version_is_no_fault,
    other_words_are_refused,
    a_number_with_a_sign_is_refused,
    an_evaluation_is_one_of_three,
    an_even_number_of_plies_is_refused,
    a_depth_above_the_greatest_is_refused,
    a_word_that_is_not_utf_8_is_refused,
    a_full_device_is_a_failed_write,
    a_closed_output_is_a_failed_write,
    a_folder_is_a_failed_read,
    want_of_memory_is_told,
    want_of_memory_for_the_words_is_told,
    quit_ends_it_while_the_input_stays_open,
    each_line_is_answered_before_the_next_is_read,
    info_lines_come_as_they_are_found,
    a_front_end_that_is_gone_is_noticed,
    a_killed_front_end_is_noticed_at_the_next_depth,
    a_file_is_as_good_as_a_pipe,
    a_replay_writes_what_its_sessions_reply,
    neither_entries_nor_slices_change_a_replay,
    numbers_of_a_replay,
    every_letter_is_a_name,
    a_slot_serves_a_thousand_sessions,
    the_longest_line_of_a_script,
    each_session_has_an_evaluation_of_its_own,
    usi_shows_the_setup,
    the_analyst_sets_the_program_up,
    the_analyst_answers_xboard,
    nothing_is_left_of_what_was_installed,
    sessions_begin_with_the_setup,
    no_search_is_deeper_than_the_greatest,
    captures_are_settled_where_exchange_is_offered,
    several_lines_are_ranked,
    several_lines_come_as_they_are_found,
    counts_are_those_that_are_published,
    divided_counts_make_the_whole,
    moves_are_listed_by_code,
    startpos_is_a_position,
    a_bad_sfen_is_named,
    a_list_and_a_count_tell_their_faults,
    a_long_count_tells_a_terminal_how_far_it_is,
    mates_are_told,
    no_mate_is_told,
    lines_are_answered_one_by_one,
    a_file_of_positions_is_answered,
    a_search_for_a_mate_tells_its_faults,
    a_long_search_for_a_mate_tells_a_terminal_how_far_it_is,
    the_first_bad_line_of_a_script_is_named,
    a_replay_writes_nothing_before_its_script_ends,
    a_replay_tells_its_faults,
    the_readme_shows_its_answers,
)


MEASURING = (
    want_of_memory_is_told,
    want_of_memory_for_the_words_is_told,
    a_killed_front_end_is_noticed_at_the_next_depth,
    a_replay_tells_its_faults,
)


if __name__ == "__main__":
    sys.exit(run_all("program", CHECKS, MEASURING))
