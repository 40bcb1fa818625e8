#!/usr/bin/env python3
"""What a run costs: `costs.py PID` watches the process PID and all that it starts, until it is told to end
or PID is gone, as where a run is cut off. Then it prints the wall time, the processor time and the ten
dearest parts. It looks each half second, so of what a process did last the parts may lack a little."""

import collections
import os
import re
import signal
import sys
import time

TICK = os.sysconf("SC_CLK_TCK")
DEAREST = 10


def stats():
    """Of each process: its parent, when it started, its own ticks, and those of its ended children."""
    for pid in filter(str.isdigit, os.listdir("/proc")):
        try:
            with open(f"/proc/{pid}/stat", encoding="utf-8", errors="replace") as stat:
                words = stat.read().rpartition(")")[2].split()
        except OSError:
            continue
        user, system, ended_user, ended_system = map(int, words[11:15])
        yield int(pid), (int(words[1]), words[19], user + system, ended_user + ended_system)


def part_of(pid):
    """The part of the run to which a process belongs, by its command."""
    try:
        with open(f"/proc/{pid}/cmdline", encoding="utf-8", errors="replace") as line:
            words = line.read().split("\0")
        folder = os.readlink(f"/proc/{pid}/cwd")
    except OSError:
        return None
    if "--crate-name" in words:
        crate = words[words.index("--crate-name") + 1]
        if any("/rt-edit" in it for it in (folder, *words)):
            return f"edits of {crate}"
        return f"tests of {crate}" if "--test" in words else crate
    # the script of a shell or of Python, or the program
    script = next((it for it in words[1:] if it and not it.startswith("-")), "")
    name = script if re.match(r"(ba|da)?sh$|python", os.path.basename(words[0])) else words[0]
    return os.path.basename((name.split() or [""])[0]) or None


def main():
    top, begun, seen, total = int(sys.argv[1]), time.monotonic(), {}, 0
    told = []
    for it in (signal.SIGTERM, signal.SIGINT, signal.SIGHUP):
        signal.signal(it, lambda *_: told.append(1))
    while True:
        at = dict(stats())
        below = {top} if top in at and os.getppid() == top else set()
        total = max([total, *(at[pid][3] for pid in below)])
        for pid in sorted(at, key=lambda pid: int(at[pid][1])):
            if at[pid][0] in below and pid != os.getpid():
                below.add(pid)
                key = pid, at[pid][1]
                part = part_of(pid) or seen.get(key, ("others", 0))[0]
                seen[key] = part, at[pid][2]
        if told or not below:
            break
        time.sleep(0.5)
    parts = collections.Counter()
    for part, ticks in seen.values():
        parts[part] += ticks
    total = max(total, sum(parts.values()))
    print(f"It took {time.monotonic() - begun:.0f} s, and {total / TICK:.0f} processor seconds on {os.cpu_count()} cores. The dearest parts:")
    for part, ticks in parts.most_common(DEAREST):
        print(f"{ticks / TICK:8.0f} s  {part}", flush=True)


if __name__ == "__main__":
    main()
