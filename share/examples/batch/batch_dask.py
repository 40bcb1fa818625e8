#!/usr/bin/env python3
"""Grades a file of positions by Dask, in blocks of lines, with workers on this machine or with those of a scheduler:

    batch_dask.py [--workers N | --scheduler ADDRESS] [--block N] positions.txt [-- --depth 6 ..] > graded.jsonl

What follows `--` is for grade.py, which all machines have at the path --grade. The output is in the order of the file,
an object of JSON for each position. A block whose worker goes away is graded anew by another one. The status is 1
where a position was refused, and 2 where a block could not be graded."""

import argparse
import os
import subprocess
import sys

from distributed import Client, LocalCluster

GRADE = os.path.join(os.path.dirname(os.path.dirname(os.path.abspath(__file__))), "grade.py")


def graded(lines, words):
    """The grades of a block, and the status of the script that made them."""
    ended = subprocess.run(words, input=b"".join(lines), capture_output=True, check=False)
    if ended.returncode not in (0, 1):
        raise RuntimeError(ended.stderr.decode(errors="replace"))
    return ended.stdout, ended.returncode


def blocks_of(path, size):
    """The lines of a file, so many at a time."""
    with open(path, "rb") as file:
        lines = file.readlines()
    return [lines[at : at + size] for at in range(0, len(lines), size)]


def main():
    parser = argparse.ArgumentParser(description="Grades a file of positions by Dask.")
    where = parser.add_mutually_exclusive_group()
    where.add_argument("--workers", type=int, default=os.cpu_count(), help="so many on this machine (its processors)")
    where.add_argument("--scheduler", metavar="ADDRESS", help="a scheduler that runs, as tcp://HOST:8786")
    parser.add_argument("--block", type=int, default=1_000, metavar="N", help="lines in a block (1,000)")
    parser.add_argument("--grade", default=GRADE, metavar="PATH", help="grade.py (the one above this script)")
    parser.add_argument("file", help="SFENs or position lines, one a line")
    parser.add_argument("words", nargs="*", help="words of grade.py, behind --")
    arguments = parser.parse_args()
    words = [arguments.grade, "--jobs", "1", "--format", "jsonl", *arguments.words]
    blocks, status = blocks_of(arguments.file, arguments.block), 0
    # Processes of their own, each with one thread, on the loopback address.
    cluster = arguments.scheduler or LocalCluster(
        n_workers=arguments.workers, threads_per_worker=1, host="127.0.0.1", dashboard_address=None
    )
    with Client(cluster) as client:
        for future in client.map(graded, blocks, words=words, pure=False):
            text, refused = future.result()
            sys.stdout.buffer.write(text)
            sys.stdout.buffer.flush()
            status = max(status, refused)
    return status


if __name__ == "__main__":
    try:
        sys.exit(main())
    except (RuntimeError, OSError) as why:
        told = f"{why.filename}: {why.strerror}" if isinstance(why, OSError) else why
        print(f"batch_dask.py: {told}", file=sys.stderr)
        sys.exit(2)
