"""What the scripts share that run the built program: where it is, what it replies, and how checks are run
and counted."""

import os
import signal
import subprocess
import sys
import time

TOP = os.path.dirname(os.path.dirname(os.path.abspath(__file__)))

# The first word of a script is the program; without it, it is the one that `make build` makes.
PROGRAM = os.path.abspath(
    sys.argv[1] if len(sys.argv) > 1 else os.path.join(TOP, "crates", "usi_host", "out", "usi_host")
)

# The reply to `usi` without a setup's words; `check/readmes.py` compares it with docs/PROTOCOL.md and the rows.
with open(os.path.join(TOP, "check", "usi.txt"), "rb") as file:
    USI = file.read()
DEPTH_ONE = b"info depth 1 score cp 0 pv 1g1f\n"
DEPTH_THREE = (
    DEPTH_ONE
    + b"info depth 2 score cp 0 pv 1g1f 1a1b\n"
    + b"info depth 3 score cp 200 pv 7g7f 4c4d 8h4d\n"
    + b"bestmove 7g7f ponder 4c4d\n"
)


# Whether the program is not the proved one: it takes more time and memory, so that checks that measure these are left out.
IS_UNPROVED = bool(os.environ.get("CHECK_UNPROVED"))

# A shell has what it starts with `&` ignore SIGINT, and a child inherits that: the checks send it one.
signal.signal(signal.SIGINT, signal.default_int_handler)


class Wrong(Exception):
    """What was seen is not what was wanted."""


def usi_of(depth=3, most=16, evaluation=b"Plain", lines=1):
    """The reply to `usi` under a setup."""
    offered = b" var Exchange" if evaluation == b"Exchange" else b""
    reply = USI
    for was, now in (
        (b"Depth type spin default 3 min 1 max 16\n", b"Depth type spin default %d min 1 max %d\n" % (depth, most)),
        (b"default Plain var Plain var Hand\n", b"default %s var Plain var Hand%s\n" % (evaluation, offered)),
        (b"MultiPV type spin default 1 ", b"MultiPV type spin default %d " % lines),
    ):
        want(reply.count(was), 1, f"{was} in the reply to usi")
        reply = reply.replace(was, now)
    return reply


def want(seen, wanted, what):
    if seen != wanted:
        raise Wrong(f"{what}: {seen!r}, wanted {wanted!r}")


def failure_of(check):
    """Runs the check; why it failed, or nothing."""
    try:
        check()
    except (Wrong, OSError, subprocess.SubprocessError) as why:
        return f"{type(why).__name__}: {why}"[:2_000]
    return ""


def run_all(name, checks, measuring=()):
    """Runs the checks, tells how each one ended and how long it took, and then counts them. One that fails
    is run once more, since the machine may stand still for a moment; its first failure is told too. Of a
    program that is not proved those are left out that measure time or memory. Gives the status of the script."""
    failed = 0
    if IS_UNPROVED:
        checks = [check for check in checks if check not in measuring]
        for check in measuring:
            print(f"{name} {check.__name__} ... left out: it measures the proved program")
    for check in checks:
        began = time.monotonic()
        verdict = "ok"
        first = failure_of(check)
        if first:
            second = failure_of(check)
            failed += bool(second)
            verdict = f"FAILED twice: {first}; {second}" if second else f"ok, but FAILED once: {first}"
        took = time.monotonic() - began
        print(f"{name} {check.__name__} ... {verdict} ({took:.1f} s)", flush=True)
    print(f"{len(checks) - failed} passed, {failed} failed")
    return 1 if failed else 0
