#!/usr/bin/env python3
"""Tries what can be tried without a proof: compiles the program and the tests of every crate, unproved and with checks
at run time, runs them, and runs the scripts of this folder on that program. It proves nothing, and tries no edit: `make
test` does. Of the worked rows each sixth is run, since each is run in some twenty ways. Checks that measure time or
memory are left out, since the unproved program takes more of both; so are the tests of a full table.
Each part has a line as it ends; what failed is shown again at the end. Its last line is `N passed, M failed`."""

import concurrent.futures
import glob
import os
import re
import shutil
import signal
import subprocess
import sys
import tempfile
import time

import build
import unproved

HERE = os.path.dirname(os.path.abspath(__file__))
SCRIPTS = ("program.py", "serve.py", "examples.py", "package.py", "readmes.py")
COUNTED = re.compile(r"^(\d+) passed, (\d+) failed", re.M)
FAILED = re.compile(r"^.*FAILED.*$", re.M)
# How long a test, a script or a program may take, in seconds.
PATIENCE = 900
# How many rows apart those are that are run.
ROW_STRIDE = 6
# Tests that fill a table with 1,000,000 positions, one after another.
LEFT_OUT = ("full::a_full_table_keeps_its_room", "full::a_table_that_may_not_grow_on_loses_notes_alone")
# What takes longest is begun first.
LONGEST = ("tests of test_search", "tests of test_memory", "scripts", "output of test_rows")
# Of the checks of addresses those that take a third of the time: of a frame after its return, and of what is copied.
CHECKS = {"ASAN_OPTIONS": "detect_stack_use_after_return=0:replace_intrin=0"}


class Part:
    """What is tried under one name: how much is left of it, what passed and failed, and what was said of that."""

    def __init__(self, name):
        self.name, self.left, self.passed, self.failed, self.seconds, self.said = name, 0, 0, 0, 0.0, []

    def take_in(self, passed, failed, said, seconds):
        self.left -= 1
        self.passed, self.failed, self.seconds = self.passed + passed, self.failed + failed, self.seconds + seconds
        if failed:
            self.said += said.splitlines()[-20:]


def crates_with_tests():
    """Those with a test, the ones with most of them first."""
    counts = {}
    for crate in build.uses()[1]:
        for path in glob.glob(os.path.join(build.CRATES, crate, "src", "**", "*.rt"), recursive=True):
            with open(path, encoding="utf-8") as file:
                counts[crate] = counts.get(crate, 0) + file.read().count("#[test]")
    return sorted((it for it in counts if counts[it]), key=lambda it: -counts[it])


def crates_with_output():
    """The programs of which is known what they print."""
    return [it for it in build.uses()[1] if os.path.exists(os.path.join(build.CRATES, it, "stdout")) and it != build.NAME]


def ended(words, **how):
    """What was said on both streams, and the status."""
    done = subprocess.run(words, stdout=subprocess.PIPE, stderr=subprocess.STDOUT, timeout=PATIENCE, check=False, **how)
    return done.stdout.decode(errors="replace"), done.returncode


# Each of the functions below tries something: what passed, what failed, what was said, and what is to be tried after it.


def tests_of(crate):
    """Compiles the tests, which are then run one by one."""
    program = unproved.tests(crate)
    said, _ = ended([program, "--list"], stdin=subprocess.DEVNULL)
    names = [it for it in re.findall(r"^(\S+): test$", said, re.M) if it not in LEFT_OUT]
    return 0, not names, said, [(test, (program, it)) for it in names]


def test(program, name):
    with tempfile.TemporaryDirectory() as folder:
        said, status = ended([program, name], cwd=folder, env=CHECKS, stdin=subprocess.DEVNULL)
    is_passed = status == 0 and said.endswith("test result: ok\n")
    return is_passed, not is_passed, f"{said}{name} FAILED (status {status})\n", []


def few_of(text):
    """Each sixth row of this text, and how many those are. An empty line ends a row."""
    rows = [it for it in text.split("\n\n") if re.search(r"^[^#\n]", it, re.M)][::ROW_STRIDE]
    return "".join(f"{it}\n\n" for it in rows), len(rows)


def output_of(crate):
    """Compiles the program, which is then run: where it reads files, once for each, with no row in the others."""
    folder, given = os.path.join(build.CRATES, crate), {}
    for pattern in ("stdin", "stdout", "args", "data/*"):
        for path in glob.glob(os.path.join(folder, pattern)):
            with open(path, encoding="utf-8", errors="surrogateescape", newline="") as file:
                given[os.path.relpath(path, folder)] = file.read()
    data = {os.path.basename(it): given[it] for it in given if it.startswith("data/")}
    wanted, sent = given["stdout"], given.get("stdin", "").encode(errors="surrogateescape")
    arguments = given.get("args", "").splitlines()
    words = [word for it in data for word in ("--data", f"{it}={os.path.join(folder, 'data', it)}")]
    program = [unproved.compiled(crate, crate, [*words, "--", *arguments], sent), *arguments]
    runs = []
    for read in sorted(data, key=lambda it: -len(data[it])) or [None]:
        few = {it: few_of(data[it]) if it == read else ("", 0) for it in data}
        printed = wanted
        for it, (_, rows) in few.items():
            printed = re.sub(rf"({it}: )\d+( rows)", rf"\g<1>{rows}\2", printed)
        runs.append((output, (program, sent, {it: text for it, (text, _) in few.items()}, printed)))
    return 0, 0, "", runs


def output(program, sent, data, wanted):
    """The program prints what is wanted, in a folder with these files."""
    with tempfile.TemporaryDirectory() as folder:
        for name, text in data.items():
            with open(os.path.join(folder, name), "w", encoding="utf-8", newline="") as file:
                file.write(text)
        how = {"cwd": folder, "env": CHECKS, "input": sent, "timeout": PATIENCE}
        done = subprocess.run(program, capture_output=True, check=False, **how)
    is_passed = (done.stdout, done.returncode) == (wanted.encode(errors="surrogateescape"), 0)
    said = (done.stdout + done.stderr).decode(errors="replace")
    return is_passed, not is_passed, f"{said}FAILED: the output is another (status {done.returncode})\n", []


def scripts():
    """Compiles the program, on which the scripts are then run."""
    program = unproved.program()
    return 0, 0, "", [(script, (it, program)) for it in SCRIPTS]


def script(name, program):
    words = [os.path.join(HERE, name), program]
    said, status = ended(words, env={**os.environ, **CHECKS, "CHECK_UNPROVED": "1"}, stdin=subprocess.DEVNULL)
    passed, failed = (int(it) for it in (COUNTED.findall(said) or [(0, 0)])[-1])
    shown = "\n".join(FAILED.findall(said)) or said
    return passed, max(failed, int(status != 0)), f"{shown}\n{name}: status {status}\n", []


def parts():
    """What is to be tried first under each name."""
    whole = [(f"tests of {it}", tests_of, (it,)) for it in crates_with_tests()]
    whole += [(f"output of {it}", output_of, (it,)) for it in crates_with_output()]
    return sorted([*whole, ("scripts", scripts, ())], key=lambda it: it[0] not in LONGEST)


def timed(function, arguments):
    began = time.monotonic()
    try:
        passed, failed, said, after = function(*arguments)
    except (unproved.Failed, subprocess.TimeoutExpired) as why:
        passed, failed, said, after = 0, 1, f"{why} FAILED", []
    return passed, failed, said, time.monotonic() - began, after


def try_all(whole):
    """Tries these parts, and tells of each one as it ends."""
    under_way, over = {}, []
    with concurrent.futures.ThreadPoolExecutor(len(os.sched_getaffinity(0))) as pool:

        def begin(part, function, arguments):
            part.left += 1
            under_way[pool.submit(timed, function, arguments)] = part

        try:
            for name, function, arguments in whole:
                begin(Part(name), function, arguments)
            while under_way:
                for task in concurrent.futures.wait(under_way, return_when="FIRST_COMPLETED").done:
                    part = under_way.pop(task)
                    *came_to, after = task.result()
                    for function, arguments in after:
                        begin(part, function, arguments)
                    part.take_in(*came_to)
                    if not part.left:
                        over.append(part)
                        counts = f"{part.passed} passed, {part.failed} failed ({part.seconds:.0f} s)"
                        print(f"{len(over)} of {len(whole)}: {part.name}: {counts}", flush=True)
        finally:
            for task in under_way:
                task.cancel()
    return over


def main():
    if shutil.which("rt") is None:
        raise unproved.Failed(unproved.NO_RT)
    began = time.monotonic()
    whole = parts()
    print(f"{len(whole)} parts. First all of them are compiled, in some minutes.", flush=True)
    over = try_all(whole)
    for part in over:
        if part.failed:
            print(f"{part.name}:", *part.said, sep="\n")
    passed, failed = sum(it.passed for it in over), sum(it.failed for it in over)
    print(f"After {time.monotonic() - began:.0f} s:")
    print(f"{passed} passed, {failed} failed")
    return 1 if failed or not passed else 0


if __name__ == "__main__":
    signal.signal(signal.SIGTERM, lambda number, frame: sys.exit(128 + number))
    # A shell has what it runs in the background ignore this signal; programs that the scripts end by it must not.
    signal.signal(signal.SIGINT, signal.default_int_handler)
    try:
        sys.exit(main())
    except unproved.Failed as why:
        print(why, file=sys.stderr)
        sys.exit(1)
    except KeyboardInterrupt:
        os.killpg(0, signal.SIGTERM)
