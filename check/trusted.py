#!/usr/bin/env python3
"""Counts the definitions that a reader trusts for a promise: those of specs/ that its words stand on, one
through another, and their lines without comments. Its arguments are names of definitions, as a module of
specs/ and a word: `host_core.Headline.PrefixOfReplies`. Without any, the words of the law behind the program."""

import glob
import os
import re
import sys

TOP = os.path.dirname(os.path.dirname(os.path.abspath(__file__)))
LAW = ("host_core.Headline.PrefixOfReplies", "host_core.Headline.AllReplies")
# The sentence of docs/PROOFS.md: each promise by its name there, and the definitions that say it.
COUNTED = (
    ("The law stands on", LAW),
    (", the replies alone on", ("usi_session.WholeStream.replies",)),
    ("; `serve` stands on", ("socket_loop.Promises.ServesTurns",)),
    (", its [whole] on", ("socket_loop.Life.Lives",)),
    (", `stdio` [ok] on", ("usi_stdio.Stdio.IsFrontEndServed",)),
    (" and `replay` [ok] on", ("usi_replay.Replayed.Replays",)),
)
BEGINS = re.compile(r"(?:(?:unfoldable|abbrev|data|record|codata|pub|inline)\s+)+«?([^\s({:»]+)")
IMPORT = re.compile(r"^use Rattle\.(\w+)\.specs\.([\w.]+)\.\{(.*)\}$")
WORD = re.compile(r"[\w◌⊤⊥≡≤<>+*/^∷%&|=-]+")


def read(path, crate, module, found, names):
    """The definitions of a module, each with its lines, and where the names come from that it uses."""
    with open(path, encoding="utf-8") as text:
        lines = [it.rstrip("\n") for it in text]
    used, current = {}, None
    for line in lines:
        imported = IMPORT.match(line)
        if imported:
            for word in imported[3].split(", "):
                used[word.split(" as ")[-1]] = (imported[1], imported[2], word.split(" as ")[0])
        elif line.startswith("--") or not line.strip():
            current = None if line.startswith("--") else current
        elif not line[0].isspace() and BEGINS.match(line) and not line.startswith("use "):
            current = (crate, module, BEGINS.match(line)[1])
            found[current] = [line]
        elif current:
            found[current].append(line)
    names[crate, module] = used


def trusted(wanted, found, names):
    """All definitions that these stand on, themselves among them."""
    seen, waiting = set(), list(wanted)
    while waiting:
        one = waiting.pop()
        if one in seen or one not in found:
            continue
        seen.add(one)
        crate, module, _ = one
        for word in WORD.findall(" ".join(found[one])):
            for part in {word, word.split(".")[0]}:
                waiting.append(names[crate, module].get(part, (crate, module, part)))
    return seen


def all_definitions():
    """The definitions of all modules, and where the names come from that each module uses."""
    found, names = {}, {}
    for path in glob.glob(f"{TOP}/crates/*/specs/**/*.antt", recursive=True):
        crate, _, inside = os.path.relpath(path, f"{TOP}/crates").partition("/specs/")
        read(path, crate, inside.removesuffix(".antt").replace("/", "."), found, names)
    return found, names


def stood_on(words, found, names):
    """The definitions that these names stand on."""
    wanted = []
    for name in words:
        crate, _, rest = name.partition(".")
        module, _, word = rest.rpartition(".")
        if (crate, module, word) not in found:
            sys.exit(f"There is no definition {name}.")
        wanted.append((crate, module, word))
    return trusted(wanted, found, names)


def told():
    """The sentence of docs/PROOFS.md: how many definitions each promise stands on, and how many lines they have."""
    found, names = all_definitions()
    sentence, units = "", (" definitions", " lines of `specs/`")
    for name, words in COUNTED:
        seen = stood_on(words, found, names)
        lines = sum(len(found[it]) for it in seen)
        sentence += f"{name} {len(seen):,}{units[0]} ({lines:,}{units[1]})"
        units = ("", "")
    return f"{sentence}."


def main():
    found, names = all_definitions()
    seen = stood_on(sys.argv[1:] or LAW, found, names)
    by_module = {}
    for one in seen:
        by_module.setdefault(one[:2], []).append(one)
    for (crate, module), ones in sorted(by_module.items()):
        lines = sum(len(found[it]) for it in ones)
        print(f"{len(ones):4} {lines:5}  {crate}/specs/{module}: {', '.join(sorted(it[2] for it in ones))}")
    print(f"{len(seen)} definitions, {sum(len(found[it]) for it in seen)} lines, in {len(by_module)} modules")


if __name__ == "__main__":
    main()
