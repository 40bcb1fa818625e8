#!/usr/bin/env python3
"""Counts the steps of the searches in crates/bench_jobs/stdin, by the job `measure`, which is compiled without a proof.
Prints each request whose steps are other than in crates/bench_jobs/stdout, and the sums of both; the status is 1 if there
is one. With `--write` it writes them there: call it so where a change of the steps is meant. The gate compares them too."""

import os
import subprocess
import sys

TOP = os.path.dirname(os.path.dirname(os.path.abspath(__file__)))
JOBS = os.path.join(TOP, "crates", "bench_jobs")
COUNTS = os.path.join(JOBS, "stdout")


def requests():
    """The requests for steps. Each has a line of counts; other lines of the input have none."""
    with open(os.path.join(JOBS, "stdin"), encoding="utf-8", errors="replace") as lines:
        return [line.strip() for line in lines if line.startswith("steps ")]


def counted():
    """The counts that the program prints."""
    with open(os.path.join(JOBS, "stdin"), "rb") as given:
        words = ["rt", "try", "--seconds", "900", "--", "measure"]
        done = subprocess.run(words, cwd=JOBS, stdin=given, capture_output=True, check=False)
    lines = done.stdout.decode(errors="replace").splitlines()
    if done.returncode != 0 or len(lines) != len(requests()):
        sys.exit(f"{done.stdout.decode(errors='replace')}{done.stderr.decode(errors='replace')}The steps were not counted.")
    return lines


def kept():
    with open(COUNTS, encoding="utf-8") as lines:
        return lines.read().splitlines()


def total(lines):
    """The steps of all requests: the last number of each line."""
    return sum(int(line.split()[-1]) for line in lines if line.split()[1:])


def main():
    now, was = counted(), kept()
    changed = [it for it in zip(requests(), was + [""] * len(now), now) if it[1] != it[2]]
    for request, old, new in changed:
        print(f"{request}\n    was {old}\n    now {new}")
    print(f"{len(changed)} of {len(now)} differ; {total(was)} steps before, {total(now)} now")
    if "--write" in sys.argv[1:]:
        with open(COUNTS, "w", encoding="utf-8") as counts:
            counts.write("".join(f"{line}\n" for line in now))
        return 0
    return 1 if changed or len(was) != len(now) else 0


if __name__ == "__main__":
    sys.exit(main())
