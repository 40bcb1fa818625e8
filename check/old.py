#!/usr/bin/env python3
"""Looks whether the program of the benchmark can still be laid over earlier commits by `bench/old`: at two of them it
is compiled, without a proof, and run on no games. Then looks what `bench/old` and `bench/run` refuse. Where the
history of the repository is not there, nothing is looked at. Its last line is `N passed, M failed`."""

import os
import shutil
import subprocess
import sys
import tempfile

from checks import TOP, Wrong, run_all, want

START, LAST_PLY = "38c6383e", "75f117a3"
OLD = os.path.join(TOP, "bench", "old")
RUN = os.path.join(TOP, "bench", "run")
# What a job prints that had no games: FNV-1a of no bytes.
NO_GAMES = "0 bytes, digest cbf29ce484222325"


def ended(*words):
    """The status of a script, and what it complains of."""
    done = subprocess.run(words, capture_output=True, text=True, check=False)
    return done.returncode, done.stderr


def name_of_program():
    with open(os.path.join(TOP, "bench", "workloads.txt"), encoding="utf-8") as lines:
        return next(iter(lines)).split()[1]


def compiles_at(commit):
    """The program compiles at the commit, and does a job on no games."""
    folder = tempfile.mkdtemp()
    try:
        tree, name = os.path.join(folder, "old"), name_of_program()
        want(ended(OLD, commit, tree), (0, ""), "bench/old")
        tried = subprocess.run(
            ["rt", "try", "--", "game", "1"],
            cwd=os.path.join(tree, "crates", name),
            stdin=subprocess.DEVNULL,
            capture_output=True,
            text=True,
            check=False,
        )
        if NO_GAMES not in tried.stdout:
            raise Wrong(f"{tried.stdout[-500:]!r} {tried.stderr[-500:]!r}")
    finally:
        shutil.rmtree(folder, ignore_errors=True)


def the_program_compiles_at_the_start():
    compiles_at(START)


def the_program_compiles_before_the_last_ply():
    compiles_at(LAST_PLY)


def old_refuses_by_name():
    for words, why in (
        (("nowhere", "/tmp/none"), "bench/old: nowhere is no commit of this repository\n"),
        ((START, TOP), f"bench/old: {TOP} is there already\n"),
    ):
        want(ended(OLD, *words), (2, why), f"{words}")
    want(ended(OLD)[0], 2, "no arguments")


def run_refuses_by_name():
    with tempfile.TemporaryDirectory() as empty:
        why = f"bench/run: {empty} has no built program {name_of_program()}\n"
        want(ended(RUN, empty, empty), (2, why), "a tree that is not built")
    want(ended(RUN, TOP)[0], 2, "one tree")


CHECKS = (
    the_program_compiles_at_the_start,
    the_program_compiles_before_the_last_ply,
    old_refuses_by_name,
    run_refuses_by_name,
)


def main():
    if ended("git", "-C", TOP, "cat-file", "-e", f"{START}^{{commit}}")[0] != 0:
        print("The history of the repository is not there, so no earlier commit is tried.")
        print("0 passed, 0 failed")
        return 0
    return run_all("old", CHECKS)


if __name__ == "__main__":
    sys.exit(main())
