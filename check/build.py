#!/usr/bin/env python3
"""check/build.py [--passed] [NAME..]: proves and builds these programs, or the library for C; without a NAME, usi_host.
Each crate that they stand on is proved from nothing, by the command of the toolchain that `rt ci` calls as well, and
again only where a file of it, or of a crate below it, is another than when it was proved. First comes the crate with
the longest chain of others behind it, by all processors; two others are proved beside it, of less priority.
With --passed, right after `rt ci`, nothing is built: what that proved in this tree is taken as proved.
Standard error tells which crates are proved, how many seconds of a processor each took, after how many seconds, and
about how long is left, as fast as it went so far. What the toolchain says is kept in `out/build.log` of each crate, and shown where it fails."""

import fcntl
import hashlib
import os
import re
import shutil
import signal
import subprocess
import sys
import time

TOP = os.path.dirname(os.path.dirname(os.path.abspath(__file__)))
CRATES = os.path.join(TOP, "crates")
NAME, LIBRARY = "usi_host", "usi_library"
# How long nothing is told at most, in seconds.
QUIET = 20
# How many crates are proved at a time, at most one a processor; and what the first of them keeps busy of all processors
# on average: its end runs on one.
AT_ONCE = 3
FIRST_SHARE = 0.5
# What is begun only after another crate, though it doesn't stand on it: beside it the first ones, for which all others
# wait, take twice as long.
AFTER = {"usi_arguments": "shogi_search"}
# What each crate takes of a processor in it, in seconds, on a Xeon of 2.5 GHz that had other work too; what has no row
# takes as much as small ones do. What is left is told by these and by how fast it went so far.
USUAL = {
    "shogi_core": 203,
    "shogi_moves": 157,
    "shogi_replies": 94,
    "shogi_sfen": 91,
    "shogi_eval": 44,
    "minimax": 13,
    "static_exchange": 38,
    "mate_search": 75,
    "analogous_moves": 79,
    "commuting_moves": 20,
    "search_nodes": 150,
    "last_ply": 112,
    "shogi_search": 121,
    "shared_table": 49,
    "usi_lines": 56,
    "usi_texts": 63,
    "usi_moves": 100,
    "usi_session": 156,
    "transport": 14,
    "byte_logs": 12,
    "stream_transport": 300,
    "session_slots": 34,
    "host_core": 127,
    "socket_loop": 206,
    "usi_stdio": 42,
    "usi_replay": 113,
    "usi_library": 89,
    "usi_arguments": 130,
    "usi_app": 25,
    "usi_host": 124,
}


class Failed(Exception):
    """Why nothing was built, for standard error."""


def uses():
    """Each line of crates.txt by its crate, and what of this repository that crate uses, in their order."""
    lines = {}
    with open(os.path.join(TOP, "crates.txt"), encoding="utf-8") as list_of_crates:
        for line in list_of_crates:
            if ":" in line and not line.startswith("#"):
                lines[line.split(":")[0].split()[0]] = line
    return lines, {it: [name for name in line.split(":")[1].split() if name in lines] for it, line in lines.items()}


def below(used, names):
    """These crates and all that they stand on, in the order of crates.txt."""
    found, wanted = set(), list(names)
    while wanted:
        crate = wanted.pop()
        if crate not in found:
            found.add(crate)
            wanted.extend(used[crate])
    return [it for it in used if it in found]


def usual(crates):
    """What these crates take of a processor, in usual seconds."""
    return sum(USUAL.get(it, 30) for it in crates)


def minutes(seconds):
    return f"about {seconds / 60:.0f} minutes" if seconds >= 90 else "about a minute"


def tell(text):
    print(text, file=sys.stderr, flush=True)


def out(crate, *path):
    return os.path.join(CRATES, crate, "out", *path)


def is_program(crate):
    return os.path.exists(os.path.join(CRATES, crate, "src", "main.rt"))


def product(crate):
    """What is made of a crate: a program, the library for C, or a library for the crates above."""
    if crate == LIBRARY:
        return out(crate, f"lib{crate}.a")
    return out(crate, crate) if is_program(crate) else out(crate, "proved", f"{crate}.rlib")


def unlinked(program):
    return out(program, "proved", f"{program}.o")


def sums(lines, used, crates):
    """Of each of these crates, lowest first, a sum of all that its proof reads: the toolchain, its line, its files, and
    those of the crates below it."""
    kit, found = subprocess.run(["rt", "version"], capture_output=True, check=True).stdout, {}
    for crate in crates:
        read = hashlib.sha256(repr((kit, lines[crate], [found[it] for it in used[crate]])).encode())
        for part in ("src", "specs", "proofs"):
            for folder, folders, names in os.walk(os.path.join(CRATES, crate, part)):
                folders.sort()
                for name in sorted(names):
                    path = os.path.join(folder, name)
                    with open(path, "rb") as file:
                        read.update(repr((os.path.relpath(path, CRATES), file.read())).encode())
        found[crate] = read.hexdigest()
    return found


def note(crate, its_sum):
    """Notes that the product of the crate was made of what has this sum."""
    os.makedirs(out(crate, "proved"), exist_ok=True)
    with open(out(crate, "proved", "sum"), "w", encoding="utf-8") as file:
        file.write(f"{its_sum} {os.stat(product(crate)).st_mtime_ns}")


def is_made(crate, its_sum):
    """Whether the product of the crate stands there as it was made of this."""
    try:
        with open(out(crate, "proved", "sum"), encoding="utf-8") as file:
            return file.read() == f"{its_sum} {os.stat(product(crate)).st_mtime_ns}"
    except OSError:
        return False


def take(crate, its_sum):
    """Takes what `rt ci` made of the crate, unless what stands there is of `rt check`."""
    made = out(crate, "rlib", f"{crate}.rlib")
    if os.path.isdir(made) and not os.path.exists(out(crate, "rlib", "stamp")):
        os.makedirs(out(crate, "proved"), exist_ok=True)
        shutil.rmtree(product(crate), ignore_errors=True)
        os.rename(made, product(crate))
    if os.path.exists(product(crate)):
        note(crate, its_sum)


class Build:
    """The crates that are to be proved, and those that are being proved."""

    def __init__(self, lines, used, crates, its_sums):
        self.lines, self.used, self.crates, self.sums = lines, used, crates, its_sums
        self.kit = os.path.dirname(os.path.dirname(os.path.realpath(shutil.which("rt"))))
        self.processors = len(os.sched_getaffinity(0))
        said = subprocess.run([f"{self.kit}/bin/rattle", "build", "--help"], capture_output=True, check=False).stdout
        self.statements = ["--statements"] if b"--statements" in said else []
        self.left = [it for it in crates if not is_made(it, its_sums[it])]
        self.new = len(self.left)
        self.behind, self.running, self.stopped = {}, {}, 0
        for crate in reversed(crates):
            after = (self.behind[it] for it in self.behind if crate in used[it])
            self.behind[crate] = usual([crate]) + max(after, default=0)
        self.ends = self.schedule()
        self.start = self.told = time.time()
        # When the last one of those that others wait for was proved, after the start, and when by `schedule`.
        self.reached = 0.0, 0.0

    def stop(self, number, _):
        """Notes the signal that ends the build."""
        self.stopped = number

    def words(self, crate, jobs):
        """The command that proves a crate from nothing, over what those below it state, and makes its product."""
        kit, to = self.kit, product(crate)
        words = [f"{kit}/bin/rattle", "build", "--crate-name", crate]
        words += ["src/main.rt" if is_program(crate) else "src/lib.rt", "-L", f"dependency={kit}/rlibs"]
        for name in ("std", *self.lines[crate].split(":")[1].split()):
            words += ["--extern", f"{name}={product(name) if name in self.used else f'{kit}/rlibs/{name}.rlib'}"]
        for it in below(self.used, self.used[crate]):
            words += ["-L", f"dependency={os.path.dirname(product(it))}"]
        words += ["--antt-project", f"{kit}/rattle/logic/antt-project.json", "--logic-built", f"{kit}/logic_built"]
        words += ["--links", f"{crate}=", "--jobs", str(jobs)]
        if crate != LIBRARY and not is_program(crate):
            return [*words, *self.statements, "-o", to]
        words += ["--toolchain", f"{kit}/toolchain", "--backend", "llvm"]
        return words + (["--crate-type", "staticlib", "-o", to] if crate == LIBRARY else ["-o", unlinked(crate)])

    def begin(self, crate, is_first):
        os.makedirs(out(crate, "proved"), exist_ok=True)
        with open(out(crate, "build.log"), "wb") as log:
            running = subprocess.Popen(
                self.words(crate, self.processors if is_first else (self.processors + 1) // 2),
                cwd=os.path.join(CRATES, crate),
                stdin=subprocess.DEVNULL,
                stdout=log,
                stderr=subprocess.STDOUT,
                start_new_session=True,
                preexec_fn=None if is_first else lambda: os.nice(10),
            )
        return running

    def begin_ready(self, left, running, begin):
        """Begins the crate with the longest chain behind it, if it waits for none, and others beside it. Those that run
        are kept with what `begin` gives, and whether they are first."""
        unproved = {*left, *running}
        beside = {it for it, (_, is_first) in running.items() if not is_first}
        first = max(unproved - beside, key=self.behind.get)
        for crate in sorted(left, key=self.behind.get, reverse=True):
            # While the first waits for others, a place is kept for it.
            most = min(AT_ONCE, self.processors) - (crate != first and first in left)
            if unproved.isdisjoint([*self.used[crate], AFTER.get(crate)]) and len(running) < most:
                left.remove(crate)
                running[crate] = begin(crate, crate == first), crate == first

    def schedule(self):
        """When each crate will be proved, after the start, if each takes what is usual: the first one has its share of
        the processors, and those beside it the others."""
        left, running, ends, now = list(self.left), {}, {}, 0.0
        while left or running:
            if left:
                self.begin_ready(left, running, lambda crate, _: usual([crate]))
            shares = {it: FIRST_SHARE for it, (_, is_first) in running.items() if is_first}
            rest = (1 - sum(shares.values())) / max(len(running) - len(shares), 1)
            shares |= {it: min(rest, FIRST_SHARE) for it in running if it not in shares}
            busy = {it: max(1.0, share * self.processors) for it, share in shares.items()}
            step = min(left_of / busy[it] for it, (left_of, _) in running.items())
            now += step
            running = {it: (left_of - step * busy[it], is_first) for it, (left_of, is_first) in running.items()}
            for it in [it for it, (left_of, _) in running.items() if left_of < 0.001]:
                ends[it] = now
                del running[it]
        return ends

    def link(self, crate):
        """Links a program; what went wrong."""
        words = [f"{self.kit}/bin/rattle-link", "--target", "x86_64-unknown-linux-gnu"]
        words += ["--toolchain", f"{self.kit}/toolchain", "-o", product(crate), unlinked(crate)]
        words += [f"{self.kit}/c/libos_c.a", f"{self.kit}/c/liblibc_c.a"]
        made = subprocess.run(words, capture_output=True, errors="replace", check=False)
        return f"{made.stdout}{made.stderr}" if made.returncode else ""

    def end(self, crate, is_first, status, seconds):
        """Takes in that a crate was proved, or shows why not."""
        said = ""
        if status:
            with open(out(crate, "build.log"), encoding="utf-8", errors="replace") as log:
                said = "".join(it for it in log if not re.search(r": proved$|^(checked|statements) ", it))
        elif is_program(crate):
            said = self.link(crate)
        if status or said:
            log = os.path.relpath(out(crate, "build.log"), TOP)
            raise Failed(f"{said}{crate} was not built (status {status}); {log} has what was said.")
        if sums(self.lines, self.used, below(self.used, [crate]))[crate] != self.sums[crate]:
            raise Failed(f"What {crate} stands on changed while it was proved. Call it again.")
        note(crate, self.sums[crate])
        self.told = time.time()
        if is_first:
            self.reached = max(self.reached, (self.told - self.start, self.ends[crate]))
        tell(f"{self.proved()}: {crate} proved, by {seconds:.0f} s of a processor, {self.after()}")

    def proved(self):
        return f"{len(self.crates) - len(self.left) - len(self.running)} of {len(self.crates)}"

    def expected(self):
        """About how long all of it takes on usual cores."""
        return minutes(max(self.ends.values()))

    def after(self):
        """How long it took so far, and about how long is left, once a crate was proved that others wait for. One that
        takes longer than it should is taken to need a quarter more of that, and what comes after it is still to come."""
        took, (reached, usually) = time.time() - self.start, self.reached
        text = f"after {took:.0f} s"
        if usually and (self.left or self.running):
            pace, whole, since = reached / usually, max(self.ends.values()), took - reached
            first = max((self.ends[it] for it, (_, is_first) in self.running.items() if is_first), default=whole)
            rest = max(pace * (first - usually) - since, since / 4) + pace * (whole - first)
            text += f", {minutes(rest)} left"
        return text

    def whole(self):
        """Proves and builds all; the status."""
        while self.left or self.running:
            if self.left:
                self.begin_ready(self.left, self.running, self.begin)
            time.sleep(0.2)
            if self.stopped:
                return 128 + self.stopped
            for crate, (running, is_first) in list(self.running.items()):
                before = sum(os.times()[2:4])
                if running.poll() is not None:
                    del self.running[crate]
                    self.end(crate, is_first, running.returncode, sum(os.times()[2:4]) - before)
            if time.time() - self.told >= QUIET:
                self.told = time.time()
                tell(f"{self.proved()} {self.after()}")
        return 0

    def kill(self):
        for running, _ in self.running.values():
            os.killpg(running.pid, signal.SIGKILL)
            running.wait()


def main():
    names = [it for it in sys.argv[1:] if it != "--passed"] or [NAME]
    if shutil.which("rt") is None:
        raise Failed("The command rt of the Rattle toolchain is not on the path. README.md says what is needed.")
    lines, used = uses()
    crates = below(used, names)
    os.makedirs(out(NAME), exist_ok=True)
    with open(out(NAME, "build.lock"), "w", encoding="utf-8") as lock:
        try:
            fcntl.flock(lock, fcntl.LOCK_EX | fcntl.LOCK_NB)
        except BlockingIOError:
            tell("Another build is under way here; waiting for its end.")
            fcntl.flock(lock, fcntl.LOCK_EX)
        its_sums = sums(lines, used, crates)
        if "--passed" in sys.argv:
            for it in crates:
                take(it, its_sums[it])
            return 0
        build = Build(lines, used, crates, its_sums)
        if build.new == len(crates):
            tell(f"Proving and building; from nothing {build.expected()} on usual cores.")
        elif build.new:
            tell(f"{build.proved()} were proved before.")
        for number in (signal.SIGINT, signal.SIGTERM, signal.SIGHUP):
            signal.signal(number, build.stop)
        try:
            return build.whole()
        finally:
            build.kill()


if __name__ == "__main__":
    try:
        sys.exit(main())
    except Failed as why:
        tell(str(why))
        sys.exit(1)
