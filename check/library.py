#!/usr/bin/env python3
"""Tries the library for C that `make library` makes: from C, whose programs are compiled here, and from
Python. Its last line is `N passed, M failed`."""

import glob
import os
import subprocess
import sys
import tempfile

from checks import DEPTH_THREE, TOP, Wrong, run_all, usi_of, want
from readmes import dead_links

LIBRARY = os.path.join(TOP, "share", "library")
OUT = os.path.join(TOP, "crates", "usi_library", "out")
sys.path.insert(0, LIBRARY)
sys.dont_write_bytecode = True

from usi_library import (  # noqa: E402
    CLOSED,
    DEPTH_ABOVE_MAX,
    DEPTH_OUT_OF_RANGE,
    HAND,
    LINES_OUT_OF_RANGE,
    MAX_DEPTH_OUT_OF_RANGE,
    NOT_WANTED,
    OUT_OF_RANGE,
    TOO_LONG,
    UNKNOWN_EVAL,
    Refused,
    Session,
    Setup,
    load,
)

SCRIPT = b"position startpos\ngo depth 3\nquit\n"
LOADED = load(os.path.join(OUT, "libusi.so"))


def compiled(folder, source, *flags):
    """The program that cc makes of the source with the library."""
    program = os.path.join(folder, "program")
    words = ["-std=c99", "-Wall", "-Wextra", "-Werror", "-I", LIBRARY, "-o", program, source]
    subprocess.run([os.environ.get("CC", "cc"), *words, *flags, os.path.join(OUT, "libusi.a")], check=True)
    return program


def calls_of_c():
    with tempfile.TemporaryDirectory() as folder:
        program = compiled(
            folder, os.path.join(TOP, "check", "library.c"), "-pthread", "-Wl,--wrap=malloc,--wrap=realloc,--wrap=free"
        )
        usi = usi_of(depth=1, most=2, evaluation=b"Exchange")
        ran = subprocess.run([program, usi], stdout=subprocess.PIPE, timeout=300)
    want((ran.returncode, ran.stdout), (0, b"refused\n"), "what the calls answer")


def names_of_the_libraries():
    """Both show the calls of the header alone; the shared one has a name, and its tables cannot be written."""
    calls = ["usi_close", "usi_feed", "usi_look", "usi_open", "usi_open_with_setup", "usi_take", "usi_work"]
    for words in (["-D", "libusi.so"], ["-g", "libusi.a"]):
        listed = subprocess.run(["nm", "--defined-only", *words], cwd=OUT, capture_output=True, text=True, check=True)
        rows = [row.split() for row in listed.stdout.splitlines()]
        want(sorted(row[2] for row in rows if len(row) == 3), calls, f"names of {words[1]}")
    table = subprocess.run(["readelf", "-dlW", "libusi.so"], cwd=OUT, capture_output=True, text=True, check=True).stdout
    for part in ("[libusi.so.0]", "NOW", "GNU_RELRO"):
        if part not in table:
            raise Wrong(f"libusi.so has no {part}")


def installed():
    """A program is built by what pkg-config says of an installed library; what an installed page links to is there."""
    with tempfile.TemporaryDirectory() as folder:
        prefix = os.path.join(folder, "a prefix")
        words = ["make", "-s", "-C", TOP, "install", f"PREFIX={prefix}"]
        subprocess.run(words, check=True, stdout=subprocess.DEVNULL)
        for page in glob.glob(os.path.join(prefix, "share", "doc", "usi_host", "**", "*.md"), recursive=True):
            want(dead_links(page), [], f"links of {page} that lead nowhere")
        config = os.path.join(prefix, "lib", "pkgconfig", "usi.pc")
        with open(config, encoding="utf-8") as file:
            want(file.readline(), f"prefix={prefix}\n", "usi.pc")
        program = os.path.join(folder, "engine")
        source = os.path.join(prefix, "share", "doc", "usi_host", "library", "engine.c")
        lib = os.path.join(prefix, "lib")
        words = ["-std=c99", "-Wall", "-Wextra", "-Werror", "-I", os.path.join(prefix, "include"), "-o", program]
        subprocess.run([os.environ.get("CC", "cc"), *words, source, f"-L{lib}", "-lusi", f"-Wl,-rpath,{lib}"], check=True)
        ran = subprocess.run([program], input=SCRIPT, stdout=subprocess.PIPE, timeout=60)
        want((ran.returncode, ran.stdout), (0, DEPTH_THREE), "the engine")
        subprocess.run(["make", "-s", "-C", TOP, "uninstall", f"PREFIX={prefix}"], check=True)
        left = [name for _, _, names in os.walk(prefix) for name in names]
        want(left, [], "what is left")


def engine_in_c():
    with tempfile.TemporaryDirectory() as folder:
        program = compiled(folder, os.path.join(LIBRARY, "engine.c"))
        for script in (SCRIPT, SCRIPT.removesuffix(b"quit\n")):
            ran = subprocess.run([program], input=script, stdout=subprocess.PIPE, timeout=60)
            want((ran.returncode, ran.stdout), (0, DEPTH_THREE), "the engine")


def script_of_python():
    words = [os.path.join(LIBRARY, "usi_library.py"), os.path.join(OUT, "libusi.so")]
    ran = subprocess.run(words, input=SCRIPT, stdout=subprocess.PIPE, timeout=60)
    want((ran.returncode, ran.stdout), (0, DEPTH_THREE), "the script")


def sessions_of_python():
    """Two sessions by turns, which know nothing of each other."""
    with Session(LOADED) as one, Session(LOADED, entries=1) as other:
        one.feed(b"setoption name Depth value 1\nposition sfen 4k4/9/4P4/9/9/9/9/9/9 b G 1\ngo\n")
        other.feed(b"go depth 3\n")
        said = [b"", b""]
        while one.look().is_pending or other.look().is_pending:
            for number, session in enumerate((one, other)):
                session.work(100)
                said[number] += session.take()
        want(said[0], b"info depth 1 score mate 1 pv G*5b\nbestmove G*5b\n", "the first session")
        want(said[1], DEPTH_THREE, "the other session")


def setups_of_python():
    """A session of depth 1 at most, which begins with Hand."""
    with Session(LOADED, setup=Setup(depth=1, max_depth=1, lines=2, eval=HAND)) as session:
        lines = b"usi\nsetoption name Depth value 9\nsetoption name MultiPV value 1\ngo depth 5\ngo\n"
        said = b"".join(session.answers(lines))
    wanted = usi_of(depth=1, most=1, evaluation=b"Hand", lines=2)
    wanted += 2 * b"info depth 1 score cp 0 pv 1g1f\nbestmove 1g1f\n"
    want(said, wanted, "what a session under a setup says")


def refusals_of_python():
    def status_of(call, *words):
        try:
            call(*words)
        except Refused as why:
            return why.status
        raise Wrong(f"{call.__name__} was not refused")

    for entries in (0, 1_000_001, -1):
        want(status_of(Session, LOADED, entries), OUT_OF_RANGE, f"{entries} entries")
    for setup, status in [
        (Setup(eval=3), UNKNOWN_EVAL),
        (Setup(depth=0), DEPTH_OUT_OF_RANGE),
        (Setup(depth=(1 << 32) + 3), DEPTH_OUT_OF_RANGE),
        (Setup(max_depth=-1), MAX_DEPTH_OUT_OF_RANGE),
        (Setup(lines=9), LINES_OUT_OF_RANGE),
        (Setup(max_depth=2), DEPTH_ABOVE_MAX),
    ]:
        want(status_of(Session, LOADED, 1, setup), status, f"{setup}")
    session = Session(LOADED)
    want(status_of(session.feed, b" " * 4097), TOO_LONG, "4,097 bytes")
    session.feed(b"isready\n")
    want(status_of(session.feed, b"usi\n"), NOT_WANTED, "while something is pending")
    for steps in (-1, 1 << 64):
        try:
            session.work(steps)
        except ValueError as why:
            want(str(why), f"steps are from 0 to 2^64 - 1, and not {steps}", "steps out of range")
        else:
            raise Wrong(f"{steps} steps were not refused")
    session.close()
    session.close()
    want(status_of(session.work, 1), CLOSED, "closed")
    want(status_of(session.take), CLOSED, "closed")


if __name__ == "__main__":
    sys.exit(
        run_all("library", [
                calls_of_c,
                names_of_the_libraries,
                installed,
                engine_in_c,
                script_of_python,
                sessions_of_python,
                setups_of_python,
                refusals_of_python,
            ])
    )
