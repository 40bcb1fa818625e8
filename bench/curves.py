#!/usr/bin/env python3
"""Measures three positions by `bench_jobs`: the time of a search against its depth, and the steps of a search
against the size of its table. Prints both as tables, and writes the plots of docs/BENCHMARKS.md and the
machine. The program has to be built: bench/rates.sh does that."""

import os
import subprocess

from report import TOP, machine, plot, put, table

JOBS = os.path.join(TOP, "crates", "bench_jobs", "out", "bench_jobs")
POSITIONS = {
    "opening": "startpos",
    "middle game": "l6nl/5+P1gk/2np1S3/p1p4Pp/3P2Sp1/1PPb2P1P/P5GS1/R8/LN4bKL w RGgsn5p 1",
    "end of a game": "8l/1l+R2P3/p2pBG1pp/kps1p4/Nn1P2G2/P1P1P2PP/1PS6/1KSG3+r1/LN2+p3L w Sbgn3p 124",
}
DEPTHS = {"opening": 6, "middle game": 5, "end of a game": 5}
TABLES = [1, 16, 256, 4_096, 65_536, 1_000_000]
TABLE_DEPTH = 4
TRIES = 15


def search(name, depth, entries):
    """The steps of a search, and its time in milliseconds."""
    line = f"search {depth} {entries} {POSITIONS[name]}\n"
    ended = subprocess.run([JOBS, "measure"], input=line, stdout=subprocess.PIPE, text=True, check=True)
    answer = ended.stdout.split()
    return int(answer[4]), float(answer[5]) * 1000


def searches(requests):
    """The steps of each search, and the least of so many times. They go by turns, so that a while in
    which the machine is slow tells on none of them alone."""
    found = {}
    for _ in range(TRIES):
        for request in requests:
            steps, ms = search(*request)
            found[request] = steps, min(ms, found.get(request, (steps, ms))[1])
    return found


def by_position(first, rows):
    """A table of a row for each depth or size, with the steps and, in brackets, the milliseconds of each position."""
    cells = {(name, n): f"{steps:,} ({ms:.2f})" for name, its in rows.items() for n, steps, ms in its}
    sizes = sorted({n for _, n in cells})
    return table([first, *rows], [[f"{n:,}", *(cells.get((name, n), "-") for name in rows)] for n in sizes])


def main():
    depths = {name: range(1, DEPTHS[name] + 1) for name in POSITIONS}
    found = searches(
        [(name, d, 0) for name in POSITIONS for d in depths[name]]
        + [(name, TABLE_DEPTH, n) for name in POSITIONS for n in TABLES]
    )
    times = {name: [(d, *found[name, d, 0]) for d in depths[name]] for name in POSITIONS}
    tables = {name: [(n, *found[name, TABLE_DEPTH, n]) for n in TABLES] for name in POSITIONS}
    plot(
        "time",
        "Time of a search without a table",
        ("depth", False),
        "milliseconds",
        {name: [(d, max(ms, 0.01)) for d, _, ms in rows] for name, rows in times.items()},
        range(1, max(DEPTHS.values()) + 1),
    )
    plot(
        "steps",
        f"Steps of a search at depth {TABLE_DEPTH} over an empty table",
        ("entries of the table", True),
        "steps",
        {name: [(n, steps) for n, steps, _ in rows] for name, rows in tables.items()},
        TABLES,
    )
    put("machine", f"The machine of the last run: {machine()}.")
    print(by_position("Depth", times))
    print(by_position("Entries", tables))


if __name__ == "__main__":
    main()
